/* bcmp for ccheck. */
#ifndef CCHECK_FUNCTION_bcmp
#define CCHECK_FUNCTION_bcmp
#include "size.h"

int bcmp(const void *a, const void *b, CCHECK_SIZE n)
{
    const unsigned char *x = (const unsigned char *)a;
    const unsigned char *y = (const unsigned char *)b;
    CCHECK_SIZE i;
    for (i = 0; i < n; i++)
        if (x[i] != y[i])
            return 1;
    return 0;
}
#endif
