/* __builtin_parityll for ccheck. */
#ifndef CCHECK_FUNCTION___builtin_parityll
#define CCHECK_FUNCTION___builtin_parityll

int __builtin_parityll(unsigned long long n)
{
    int odd = 0;
    for (; n != 0; n = n & (n - 1))
        odd = !odd;
    return odd;
}
#endif
