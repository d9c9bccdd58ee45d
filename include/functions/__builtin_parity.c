/* __builtin_parity for ccheck. */
#ifndef CCHECK_FUNCTION___builtin_parity
#define CCHECK_FUNCTION___builtin_parity

int __builtin_parity(unsigned int n)
{
    int odd = 0;
    for (; n != 0; n = n & (n - 1))
        odd = !odd;
    return odd;
}
#endif
