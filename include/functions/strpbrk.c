/* strpbrk for ccheck. */
#ifndef CCHECK_FUNCTION_strpbrk
#define CCHECK_FUNCTION_strpbrk
#include "size.h"

char *strpbrk(const char *s, const char *set)
{
    const unsigned char *x = (const unsigned char *)s;
    const unsigned char *y = (const unsigned char *)set;
    CCHECK_SIZE n = strlen(s), m = strlen(set), i, k;
    for (i = 0; i < n; i++)
        for (k = 0; k < m; k++)
            if (x[i] == y[k])
                return (char *)s + i;
    return 0;
}
#endif
