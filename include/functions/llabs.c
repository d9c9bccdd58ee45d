/* llabs for ccheck. */
#ifndef CCHECK_FUNCTION_llabs
#define CCHECK_FUNCTION_llabs

long long llabs(long long n)
{
    if (n < 0)
        return -n;
    return n;
}
#endif
