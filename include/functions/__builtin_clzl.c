/* __builtin_clzl for ccheck. */
#ifndef CCHECK_FUNCTION___builtin_clzl
#define CCHECK_FUNCTION___builtin_clzl

int __builtin_clzl(unsigned long n)
{
    int count = 8 * (int)sizeof(n);
    for (; n != 0; n = n >> 1)
        count--;
    return count;
}
#endif
