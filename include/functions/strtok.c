/* strtok for ccheck. */
#ifndef CCHECK_FUNCTION_strtok
#define CCHECK_FUNCTION_strtok
#include "size.h"

char *strtok(char *s, const char *set)
{
    static char *rest;
    const unsigned char *y = (const unsigned char *)set;
    CCHECK_SIZE m = strlen(set), n, i, k, start;
    if (s == 0)
        s = rest;
    if (s == 0)
        return 0;
    n = strlen(s);
    for (start = 0; start < n; start++) {
        for (k = 0; k < m; k++)
            if ((unsigned char)s[start] == y[k])
                break;
        if (k == m)
            break;
    }
    rest = 0;
    if (start == n)
        return 0;
    for (i = start; i < n; i++)
        for (k = 0; k < m; k++)
            if ((unsigned char)s[i] == y[k]) {
                s[i] = 0;
                rest = s + i + 1;
                return s + start;
            }
    return s + start;
}
#endif
