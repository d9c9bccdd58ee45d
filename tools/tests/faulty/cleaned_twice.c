/* Where the second allocation fails, the first is freed on the way out and at the end. */
#include <stdlib.h>

int main(void)
{
    char *one = malloc(8), *two;
    if (one == NULL)
        return 1;
    two = malloc(8);
    if (two == NULL)
        free(one);
    else
        free(two);
    free(one); /* real: dblfree */
    return 0;
}
