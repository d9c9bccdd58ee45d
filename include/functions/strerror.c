/* strerror for ccheck. */
/* assumes: the text of an error is any string of at most 63 characters */
#ifndef CCHECK_FUNCTION_strerror
#define CCHECK_FUNCTION_strerror

char *strerror(int number)
{
    static char text[64];
    fgets(text, 64, 0);
    return text;
}
#endif
