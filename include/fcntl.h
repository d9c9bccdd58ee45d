/* fcntl.h for ccheck: numbers alone, since open has a variable number of arguments. */
#ifndef CCHECK_FCNTL_H
#define CCHECK_FCNTL_H
#include <sys/types.h>
#define O_RDONLY 0
#define O_WRONLY 1
#define O_RDWR 2
#define O_CREAT 64
#define O_EXCL 128
#define O_TRUNC 512
#define O_APPEND 1024
#endif
