/* strstr for ccheck. */
#ifndef CCHECK_FUNCTION_strstr
#define CCHECK_FUNCTION_strstr
#include "size.h"

char *strstr(const char *s, const char *part)
{
    const unsigned char *x = (const unsigned char *)s;
    const unsigned char *y = (const unsigned char *)part;
    CCHECK_SIZE n = strlen(s), m = strlen(part), i, k, at;
    for (i = 0; i <= n; i++) {
        for (k = 0; k < m; k++) {
            at = i + k;
            if (at > n || x[at] != y[k])
                break;
        }
        if (k == m)
            return (char *)s + i;
    }
    return 0;
}
#endif
