/* stdbool.h for ccheck. assumes: bool is read as int, so (bool)2 is 2, and sizeof(bool) is that of int */
#ifndef CCHECK_STDBOOL_H
#define CCHECK_STDBOOL_H
#define bool int
#define true 1
#define false 0
#define __bool_true_false_are_defined 1
#endif
