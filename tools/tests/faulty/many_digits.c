/* A number of ten digits or more. */
#include <stdio.h>

int main(void)
{
    int number = 0, c;
    while ((c = getchar()) >= '0' && c <= '9')
        number = number * 10 + (c - '0'); /* real: intoflow */
    printf("%d\n", number);
    return 0;
}
