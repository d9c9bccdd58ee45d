/* isascii for ccheck. */
#ifndef CCHECK_FUNCTION_isascii
#define CCHECK_FUNCTION_isascii

int isascii(int c)
{
    return 0 <= c && c <= 127;
}
#endif
