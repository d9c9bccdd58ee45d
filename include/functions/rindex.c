/* rindex for ccheck. */
#ifndef CCHECK_FUNCTION_rindex
#define CCHECK_FUNCTION_rindex
#include "size.h"

char *rindex(const char *s, int c)
{
    const unsigned char *x = (const unsigned char *)s;
    CCHECK_SIZE n = strlen(s), i, found = 0;
    int any = 0;
    for (i = 0; i <= n; i++)
        if (x[i] == (unsigned char)c) {
            found = i;
            any = 1;
        }
    return any ? (char *)s + found : 0;
}
#endif
