/* errno.h for ccheck. assumes: each use of errno may read any number, and what is stored in it is forgotten */
#ifndef CCHECK_ERRNO_H
#define CCHECK_ERRNO_H
static int ccheck_errno_value;
static int *ccheck_errno(void)
{
    unsigned int n = getchar() & 255;
    n = n * 256 + (getchar() & 255);
    n = n * 256 + (getchar() & 255);
    n = n * 256 + (getchar() & 255);
    ccheck_errno_value = (int)n;
    return &ccheck_errno_value;
}
#define errno (*ccheck_errno())
#define EPERM 1
#define ENOENT 2
#define ESRCH 3
#define EINTR 4
#define EIO 5
#define ENXIO 6
#define E2BIG 7
#define ENOEXEC 8
#define EBADF 9
#define ECHILD 10
#define EAGAIN 11
#define EWOULDBLOCK EAGAIN
#define ENOMEM 12
#define EACCES 13
#define EFAULT 14
#define EBUSY 16
#define EEXIST 17
#define EXDEV 18
#define ENODEV 19
#define ENOTDIR 20
#define EISDIR 21
#define EINVAL 22
#define ENFILE 23
#define EMFILE 24
#define ENOTTY 25
#define EFBIG 27
#define ENOSPC 28
#define ESPIPE 29
#define EROFS 30
#define EMLINK 31
#define EPIPE 32
#define EDOM 33
#define ERANGE 34
#define ENAMETOOLONG 36
#define ENOSYS 38
#define EILSEQ 84
#define EOVERFLOW 75
#define ENOTSUP 95
#endif
