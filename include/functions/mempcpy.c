/* mempcpy for ccheck. */
#ifndef CCHECK_FUNCTION_mempcpy
#define CCHECK_FUNCTION_mempcpy
#include "size.h"

void *mempcpy(void *to, const void *from, CCHECK_SIZE n)
{
    memcpy(to, from, n);
    return (char *)to + n;
}
#endif
