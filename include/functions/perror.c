/* perror for ccheck. */
#ifndef CCHECK_FUNCTION_perror
#define CCHECK_FUNCTION_perror

void perror(const char *s)
{
    if (s != 0)
        strlen(s);
}
#endif
