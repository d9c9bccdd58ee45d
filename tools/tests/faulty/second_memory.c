/* The first allocation is tested, the second one is not. */
#include <stdio.h>
#include <stdlib.h>

int main(void)
{
    char *one = malloc(8), *two;
    if (one == NULL)
        return 1;
    two = malloc(8);
    two[0] = 'x'; /* real: nullref */
    one[0] = two[0];
    putchar(one[0]);
    free(one);
    free(two);
    return 0;
}
