/* index for ccheck. */
#ifndef CCHECK_FUNCTION_index
#define CCHECK_FUNCTION_index
#include "size.h"

char *index(const char *s, int c)
{
    const unsigned char *x = (const unsigned char *)s;
    CCHECK_SIZE n = strlen(s), i;
    for (i = 0; i <= n; i++)
        if (x[i] == (unsigned char)c)
            return (char *)s + i;
    return 0;
}
#endif
