/* strndup for ccheck. */
#ifndef CCHECK_FUNCTION_strndup
#define CCHECK_FUNCTION_strndup
#include "size.h"

char *strndup(const char *s, CCHECK_SIZE n)
{
    const unsigned char *x = (const unsigned char *)s;
    CCHECK_SIZE length;
    char *made;
    for (length = 0; length < n; length++)
        if (x[length] == 0)
            break;
    made = calloc(length + 1, 1);
    if (made == 0)
        return 0;
    memcpy(made, s, length);
    return made;
}
#endif
