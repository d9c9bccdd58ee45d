/* __builtin_ctzll for ccheck. */
#ifndef CCHECK_FUNCTION___builtin_ctzll
#define CCHECK_FUNCTION___builtin_ctzll

int __builtin_ctzll(unsigned long long n)
{
    int count = 0;
    for (; n != 0 && (n & 1) == 0; n = n >> 1)
        count++;
    return count;
}
#endif
