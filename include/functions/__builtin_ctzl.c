/* __builtin_ctzl for ccheck. */
#ifndef CCHECK_FUNCTION___builtin_ctzl
#define CCHECK_FUNCTION___builtin_ctzl

int __builtin_ctzl(unsigned long n)
{
    int count = 0;
    for (; n != 0 && (n & 1) == 0; n = n >> 1)
        count++;
    return count;
}
#endif
