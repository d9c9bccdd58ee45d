/* __builtin_popcount for ccheck. */
#ifndef CCHECK_FUNCTION___builtin_popcount
#define CCHECK_FUNCTION___builtin_popcount

int __builtin_popcount(unsigned int n)
{
    int count = 0;
    for (; n != 0; n = n & (n - 1))
        count++;
    return count;
}
#endif
