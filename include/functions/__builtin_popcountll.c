/* __builtin_popcountll for ccheck. */
#ifndef CCHECK_FUNCTION___builtin_popcountll
#define CCHECK_FUNCTION___builtin_popcountll

int __builtin_popcountll(unsigned long long n)
{
    int count = 0;
    for (; n != 0; n = n & (n - 1))
        count++;
    return count;
}
#endif
