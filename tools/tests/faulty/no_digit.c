/* The digit is set only if there was one. */
#include <stdio.h>

int main(void)
{
    int digit, c;
    while ((c = getchar()) != EOF && c != '\n')
        if (c >= '0' && c <= '9')
            digit = c - '0';
    return digit; /* real: uninitref */
}
