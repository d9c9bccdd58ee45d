/* abs for ccheck. */
#ifndef CCHECK_FUNCTION_abs
#define CCHECK_FUNCTION_abs

int abs(int n)
{
    if (n < 0)
        return -n;
    return n;
}
#endif
