/* strcspn for ccheck. */
#ifndef CCHECK_FUNCTION_strcspn
#define CCHECK_FUNCTION_strcspn
#include "size.h"

CCHECK_SIZE strcspn(const char *s, const char *set)
{
    const unsigned char *x = (const unsigned char *)s;
    const unsigned char *y = (const unsigned char *)set;
    CCHECK_SIZE n = strlen(s), m = strlen(set), i, k;
    for (i = 0; i < n; i++)
        for (k = 0; k < m; k++)
            if (x[i] == y[k])
                return i;
    return n;
}
#endif
