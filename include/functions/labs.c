/* labs for ccheck. */
#ifndef CCHECK_FUNCTION_labs
#define CCHECK_FUNCTION_labs

long labs(long n)
{
    if (n < 0)
        return -n;
    return n;
}
#endif
