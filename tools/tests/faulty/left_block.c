/* The address of an object is kept after its block. */
#include <stdio.h>

int main(void)
{
    int outer = 1;
    int *place = &outer;
    int c = getchar();
    if (c == 'x') {
        int inner = 2;
        place = &inner;
    }
    return *place; /* real: nullref */
}
