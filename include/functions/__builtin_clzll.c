/* __builtin_clzll for ccheck. */
#ifndef CCHECK_FUNCTION___builtin_clzll
#define CCHECK_FUNCTION___builtin_clzll

int __builtin_clzll(unsigned long long n)
{
    int count = 8 * (int)sizeof(n);
    for (; n != 0; n = n >> 1)
        count--;
    return count;
}
#endif
