/* A sum of characters that is just 500. */
#include <stdio.h>

int main(void)
{
    int sum = 0, c;
    while (sum < 2000 && (c = getchar()) != EOF && c != '\n')
        sum += c;
    if (sum == 500)
        return 1 / (sum - 500); /* real: diverr */
    return 0;
}
