/* __builtin_bswap64 for ccheck. */
#ifndef CCHECK_FUNCTION___builtin_bswap64
#define CCHECK_FUNCTION___builtin_bswap64

unsigned long long __builtin_bswap64(unsigned long long n)
{
    unsigned long long turned = 0;
    int i;
    for (i = 0; i < 8; i++) {
        turned = (turned << 8) | (n & 255);
        n = n >> 8;
    }
    return turned;
}
#endif
