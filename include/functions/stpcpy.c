/* stpcpy for ccheck. */
#ifndef CCHECK_FUNCTION_stpcpy
#define CCHECK_FUNCTION_stpcpy

char *stpcpy(char *to, const char *from)
{
    strcpy(to, from);
    return to + strlen(from);
}
#endif
