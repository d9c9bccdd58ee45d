/* iscntrl for ccheck; isalpha looks at the range of its argument. */
#ifndef CCHECK_FUNCTION_iscntrl
#define CCHECK_FUNCTION_iscntrl

int iscntrl(int c)
{
    isalpha(c);
    return (0 <= c && c <= 31) || c == 127;
}
#endif
