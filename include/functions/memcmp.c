/* memcmp for ccheck. */
#ifndef CCHECK_FUNCTION_memcmp
#define CCHECK_FUNCTION_memcmp
#include "size.h"

int memcmp(const void *a, const void *b, CCHECK_SIZE n)
{
    const unsigned char *x = (const unsigned char *)a;
    const unsigned char *y = (const unsigned char *)b;
    CCHECK_SIZE i;
    for (i = 0; i < n; i++)
        if (x[i] != y[i])
            return x[i] < y[i] ? -1 : 1;
    return 0;
}
#endif
