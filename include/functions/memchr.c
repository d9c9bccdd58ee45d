/* memchr for ccheck. */
#ifndef CCHECK_FUNCTION_memchr
#define CCHECK_FUNCTION_memchr
#include "size.h"

void *memchr(const void *s, int c, CCHECK_SIZE n)
{
    const unsigned char *x = (const unsigned char *)s;
    CCHECK_SIZE i;
    for (i = 0; i < n; i++)
        if (x[i] == (unsigned char)c)
            return (void *)(x + i);
    return 0;
}
#endif
