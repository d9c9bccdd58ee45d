/* __builtin_bswap16 for ccheck. */
#ifndef CCHECK_FUNCTION___builtin_bswap16
#define CCHECK_FUNCTION___builtin_bswap16

unsigned short __builtin_bswap16(unsigned short n)
{
    return (unsigned short)(((n & 255) << 8) | (n >> 8));
}
#endif
