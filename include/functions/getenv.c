/* getenv for ccheck. */
/* assumes: a variable of the environment is absent or any string of at most 63 characters */
#ifndef CCHECK_FUNCTION_getenv
#define CCHECK_FUNCTION_getenv

char *getenv(const char *name)
{
    static char value[64];
    strlen(name);
    return fgets(value, 64, 0);
}
#endif
