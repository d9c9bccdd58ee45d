/* strcasecmp for ccheck. */
#ifndef CCHECK_FUNCTION_strcasecmp
#define CCHECK_FUNCTION_strcasecmp
#include "size.h"

int strcasecmp(const char *a, const char *b)
{
    const unsigned char *x = (const unsigned char *)a;
    const unsigned char *y = (const unsigned char *)b;
    CCHECK_SIZE n = strlen(a), m = strlen(b), i;
    if (m < n)
        n = m;
    for (i = 0; i <= n; i++)
        if (tolower(x[i]) != tolower(y[i]))
            return tolower(x[i]) < tolower(y[i]) ? -1 : 1;
    return 0;
}
#endif
