/* __builtin_ctz for ccheck. */
#ifndef CCHECK_FUNCTION___builtin_ctz
#define CCHECK_FUNCTION___builtin_ctz

int __builtin_ctz(unsigned int n)
{
    int count = 0;
    for (; n != 0 && (n & 1) == 0; n = n >> 1)
        count++;
    return count;
}
#endif
