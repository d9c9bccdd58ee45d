/* strrchr for ccheck. */
#ifndef CCHECK_FUNCTION_strrchr
#define CCHECK_FUNCTION_strrchr
#include "size.h"

char *strrchr(const char *s, int c)
{
    const unsigned char *x = (const unsigned char *)s;
    CCHECK_SIZE n = strlen(s), i, found = 0;
    int any = 0;
    for (i = 0; i <= n; i++)
        if (x[i] == (unsigned char)c) {
            found = i;
            any = 1;
        }
    return any ? (char *)s + found : 0;
}
#endif
