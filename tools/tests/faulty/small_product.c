/* entry: made */
/* A size of 32 bits wraps. */
#include <stdlib.h>

int made(unsigned count)
{
    unsigned size = count * 8;
    long *items;
    if (count == 0)
        return 0;
    items = (long *)malloc(size); /* real: insufmem */
    free(items);
    return 1;
}
