/* byteswap.h for ccheck. */
#ifndef CCHECK_BYTESWAP_H
#define CCHECK_BYTESWAP_H
static unsigned short bswap_16(unsigned short n)
{
    return (unsigned short)(((n & 255) << 8) | (n >> 8));
}
static unsigned int bswap_32(unsigned int n)
{
    return ((n & 255) << 24) | ((n & 0xff00) << 8) | ((n >> 8) & 0xff00) | (n >> 24);
}
#endif
