/* ffs for ccheck. */
#ifndef CCHECK_FUNCTION_ffs
#define CCHECK_FUNCTION_ffs

int ffs(int n)
{
    unsigned int rest = (unsigned int)n;
    int at;
    for (at = 1; at <= 32; at++) {
        if (rest & 1)
            return at;
        rest = rest >> 1;
    }
    return 0;
}
#endif
