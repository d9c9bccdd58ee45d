/* float.h for ccheck: the integers alone. Floating types are not accepted. */
#ifndef CCHECK_FLOAT_H
#define CCHECK_FLOAT_H
#define FLT_RADIX 2
#define FLT_MANT_DIG 24
#define DBL_MANT_DIG 53
#define FLT_DIG 6
#define DBL_DIG 15
#define FLT_MIN_EXP (-125)
#define FLT_MAX_EXP 128
#define DBL_MIN_EXP (-1021)
#define DBL_MAX_EXP 1024
#define FLT_MIN_10_EXP (-37)
#define FLT_MAX_10_EXP 38
#define DBL_MIN_10_EXP (-307)
#define DBL_MAX_10_EXP 308
#endif
