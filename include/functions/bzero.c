/* bzero for ccheck. */
#ifndef CCHECK_FUNCTION_bzero
#define CCHECK_FUNCTION_bzero
#include "size.h"

void bzero(void *s, CCHECK_SIZE n)
{
    memset(s, 0, n);
}
#endif
