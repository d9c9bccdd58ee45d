/* strtoul for ccheck. */
#ifndef CCHECK_FUNCTION_strtoul
#define CCHECK_FUNCTION_strtoul
#include "size.h"
#include "isxdigit.c"

unsigned long strtoul(const char *s, char **end, int base)
{
    const unsigned char *x = (const unsigned char *)s;
    CCHECK_SIZE n = strlen(s), i = 0, start;
    unsigned long value = 0, last = ~0ul, digit;
    int minus = 0, over = 0;
    while (i < n && (x[i] == ' ' || (9 <= x[i] && x[i] <= 13)))
        i++;
    if (x[i] == '-' || x[i] == '+')
        minus = x[i++] == '-';
    if ((base == 0 || base == 16) && i + 2 < n && x[i] == '0' && (x[i + 1] == 'x' || x[i + 1] == 'X')
        && isxdigit(x[i + 2])) {
        base = 16;
        i = i + 2;
    }
    if (base == 0)
        base = x[i] == '0' ? 8 : 10;
    start = i;
    for (; i < n && isalnum(x[i]); i++) {
        digit = isdigit(x[i]) ? x[i] - '0' : tolower(x[i]) - 'a' + 10;
        if (digit >= (unsigned int)base)
            break;
        if (value > (last - digit) / (unsigned int)base)
            over = 1;
        value = value * (unsigned int)base + digit;
    }
    if (end != 0)
        *end = (char *)s + (i == start ? 0 : i);
    if (over)
        return last;
    return minus ? 0 - value : value;
}
#endif
