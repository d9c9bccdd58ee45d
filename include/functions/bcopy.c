/* bcopy for ccheck. */
#ifndef CCHECK_FUNCTION_bcopy
#define CCHECK_FUNCTION_bcopy
#include "size.h"

void bcopy(const void *from, void *to, CCHECK_SIZE n)
{
    memmove(to, from, n);
}
#endif
