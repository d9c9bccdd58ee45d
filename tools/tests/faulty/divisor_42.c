/* A number is read and 42 is the one that nobody thought of. */
#include <stdio.h>

int main(void)
{
    int number = 0, c;
    while ((c = getchar()) >= '0' && c <= '9' && number < 10000)
        number = number * 10 + (c - '0');
    return 1000 / (number - 42); /* real: diverr */
}
