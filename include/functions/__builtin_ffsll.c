/* __builtin_ffsll for ccheck. */
#ifndef CCHECK_FUNCTION___builtin_ffsll
#define CCHECK_FUNCTION___builtin_ffsll

int __builtin_ffsll(long long n)
{
    unsigned long long rest = (unsigned long long)n;
    int at;
    for (at = 1; rest != 0; at++) {
        if (rest & 1)
            return at;
        rest = rest >> 1;
    }
    return 0;
}
#endif
