/* The average of the characters of a text, which may be empty. */
#include <stdio.h>

int main(void)
{
    int sum = 0, count = 0, c;
    while (count < 1000 && (c = getchar()) != EOF) {
        sum += c;
        count++;
    }
    printf("%d\n", sum / count); /* real: diverr */
    return 0;
}
