/* strncasecmp for ccheck. */
#ifndef CCHECK_FUNCTION_strncasecmp
#define CCHECK_FUNCTION_strncasecmp
#include "size.h"

int strncasecmp(const char *a, const char *b, CCHECK_SIZE n)
{
    const unsigned char *x = (const unsigned char *)a;
    const unsigned char *y = (const unsigned char *)b;
    CCHECK_SIZE i;
    for (i = 0; i < n; i++) {
        if (tolower(x[i]) != tolower(y[i]))
            return tolower(x[i]) < tolower(y[i]) ? -1 : 1;
        if (x[i] == 0)
            return 0;
    }
    return 0;
}
#endif
