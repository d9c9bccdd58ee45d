/* An allocation that is not tested. */
#include <stdlib.h>

int main(void)
{
    int *p = malloc(sizeof *p);
    *p = 1; /* real: nullref */
    free(p);
    return 0;
}
