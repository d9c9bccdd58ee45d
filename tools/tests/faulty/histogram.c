/* Ten bars of 25 values each do not reach to 255. */
#include <stdio.h>

int main(void)
{
    int bars[10] = {0};
    int c;
    while ((c = getchar()) != EOF)
        bars[c / 25] = 1; /* real: invptr */
    return bars[0];
}
