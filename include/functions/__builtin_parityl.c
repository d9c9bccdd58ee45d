/* __builtin_parityl for ccheck. */
#ifndef CCHECK_FUNCTION___builtin_parityl
#define CCHECK_FUNCTION___builtin_parityl

int __builtin_parityl(unsigned long n)
{
    int odd = 0;
    for (; n != 0; n = n & (n - 1))
        odd = !odd;
    return odd;
}
#endif
