/* strnlen for ccheck. */
#ifndef CCHECK_FUNCTION_strnlen
#define CCHECK_FUNCTION_strnlen
#include "size.h"

CCHECK_SIZE strnlen(const char *s, CCHECK_SIZE n)
{
    const unsigned char *x = (const unsigned char *)s;
    CCHECK_SIZE i;
    for (i = 0; i < n; i++)
        if (x[i] == 0)
            return i;
    return n;
}
#endif
