/* strchr for ccheck. */
#ifndef CCHECK_FUNCTION_strchr
#define CCHECK_FUNCTION_strchr
#include "size.h"

char *strchr(const char *s, int c)
{
    const unsigned char *x = (const unsigned char *)s;
    CCHECK_SIZE n = strlen(s), i;
    for (i = 0; i <= n; i++)
        if (x[i] == (unsigned char)c)
            return (char *)s + i;
    return 0;
}
#endif
