/* fread for ccheck. */
/* assumes: the elements that are read are any bytes, and as many as there are */
#ifndef CCHECK_FUNCTION_fread
#define CCHECK_FUNCTION_fread
#include "size.h"
struct __file;

CCHECK_SIZE fread(void *to, CCHECK_SIZE size, CCHECK_SIZE count, struct __file *stream)
{
    unsigned char *x = (unsigned char *)to;
    CCHECK_SIZE all = size * count, i;
    int c;
    if (all == 0)
        return 0;
    memset(to, 0, all);
    for (i = 0; i < all; i++) {
        c = getchar();
        if (c < 0)
            return i / size;
        x[i] = (unsigned char)c;
    }
    return count;
}
#endif
