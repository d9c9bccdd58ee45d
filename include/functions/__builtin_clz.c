/* __builtin_clz for ccheck. */
#ifndef CCHECK_FUNCTION___builtin_clz
#define CCHECK_FUNCTION___builtin_clz

int __builtin_clz(unsigned int n)
{
    int count = 8 * (int)sizeof(n);
    for (; n != 0; n = n >> 1)
        count--;
    return count;
}
#endif
