/* toascii for ccheck. */
#ifndef CCHECK_FUNCTION_toascii
#define CCHECK_FUNCTION_toascii

int toascii(int c)
{
    return c & 127;
}
#endif
