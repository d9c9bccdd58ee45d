/* A row that is one too low. */
#include <stdio.h>

int main(void)
{
    int grid[12] = {0};
    int row = getchar() - '0', column = getchar() - '0';
    if (row < 0 || row > 3 || column < 0 || column > 3)
        return 1;
    grid[row * 4 + column] = 1; /* real: invptr */
    return 0;
}
