/* fwrite for ccheck. */
/* assumes: all elements are written, and only their bounds are looked at */
#ifndef CCHECK_FUNCTION_fwrite
#define CCHECK_FUNCTION_fwrite
#include "size.h"
struct __file;

CCHECK_SIZE fwrite(const void *from, CCHECK_SIZE size, CCHECK_SIZE count, struct __file *stream)
{
    const unsigned char *x = (const unsigned char *)from;
    CCHECK_SIZE all = size * count;
    if (all > 0)
        x = x + all;
    return size == 0 ? 0 : count;
}
#endif
