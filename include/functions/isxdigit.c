/* isxdigit for ccheck. */
#ifndef CCHECK_FUNCTION_isxdigit
#define CCHECK_FUNCTION_isxdigit

int isxdigit(int c)
{
    return isdigit(c) || ('a' <= c && c <= 'f') || ('A' <= c && c <= 'F');
}
#endif
