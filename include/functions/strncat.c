/* strncat for ccheck. */
#ifndef CCHECK_FUNCTION_strncat
#define CCHECK_FUNCTION_strncat
#include "size.h"

char *strncat(char *to, const char *from, CCHECK_SIZE n)
{
    CCHECK_SIZE at = strlen(to), i;
    for (i = 0; i < n && from[i] != 0; i++)
        to[at + i] = from[i];
    to[at + i] = 0;
    return to;
}
#endif
