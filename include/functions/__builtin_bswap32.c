/* __builtin_bswap32 for ccheck. */
#ifndef CCHECK_FUNCTION___builtin_bswap32
#define CCHECK_FUNCTION___builtin_bswap32

unsigned int __builtin_bswap32(unsigned int n)
{
    return ((n & 255) << 24) | ((n & 0xff00) << 8) | ((n >> 8) & 0xff00) | (n >> 24);
}
#endif
