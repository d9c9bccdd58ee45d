/* strncmp for ccheck. */
#ifndef CCHECK_FUNCTION_strncmp
#define CCHECK_FUNCTION_strncmp
#include "size.h"

int strncmp(const char *a, const char *b, CCHECK_SIZE n)
{
    const unsigned char *x = (const unsigned char *)a;
    const unsigned char *y = (const unsigned char *)b;
    CCHECK_SIZE i;
    for (i = 0; i < n; i++) {
        if (x[i] != y[i])
            return x[i] < y[i] ? -1 : 1;
        if (x[i] == 0)
            return 0;
    }
    return 0;
}
#endif
