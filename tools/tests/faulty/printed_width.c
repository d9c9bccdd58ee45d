/* What printf gives is taken for an index. */
#include <stdio.h>

int main(void)
{
    int widths[16] = {0};
    int number = getchar(), width;
    width = printf("%d\n", number);
    widths[width] = 1; /* real: invptr */
    return 0;
}
