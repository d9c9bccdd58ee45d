/* strdup for ccheck. */
#ifndef CCHECK_FUNCTION_strdup
#define CCHECK_FUNCTION_strdup
#include "size.h"

char *strdup(const char *s)
{
    CCHECK_SIZE n = strlen(s);
    char *made = malloc(n + 1);
    if (made == 0)
        return 0;
    strcpy(made, s);
    return made;
}
#endif
