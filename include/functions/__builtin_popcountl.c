/* __builtin_popcountl for ccheck. */
#ifndef CCHECK_FUNCTION___builtin_popcountl
#define CCHECK_FUNCTION___builtin_popcountl

int __builtin_popcountl(unsigned long n)
{
    int count = 0;
    for (; n != 0; n = n & (n - 1))
        count++;
    return count;
}
#endif
