/* atol for ccheck. */
#ifndef CCHECK_FUNCTION_atol
#define CCHECK_FUNCTION_atol
#include "size.h"

long atol(const char *s)
{
    const unsigned char *x = (const unsigned char *)s;
    CCHECK_SIZE n = strlen(s), i = 0;
    int minus = 0;
    long value = 0;
    while (i < n && (x[i] == ' ' || (9 <= x[i] && x[i] <= 13)))
        i++;
    if (x[i] == '-' || x[i] == '+')
        minus = x[i++] == '-';
    for (; i < n && '0' <= x[i] && x[i] <= '9'; i++)
        value = value * 10 - (x[i] - '0');
    return minus ? value : -value;
}
#endif
