/* __builtin_ffsl for ccheck. */
#ifndef CCHECK_FUNCTION___builtin_ffsl
#define CCHECK_FUNCTION___builtin_ffsl

int __builtin_ffsl(long n)
{
    unsigned long rest = (unsigned long)n;
    int at;
    for (at = 1; rest != 0; at++) {
        if (rest & 1)
            return at;
        rest = rest >> 1;
    }
    return 0;
}
#endif
