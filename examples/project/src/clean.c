/* Counts the digits of a text. */
#include <stdio.h>

int main(void)
{
    int counts[10] = {0};
    int seen = 0;
    while (seen < 1000) {
        int c = getchar();
        if (c < 0)
            break;
        if (c >= '0' && c <= '9')
            counts[c - '0'] = seen;
        seen = seen + 1;
    }
    printf("%d\n", counts[0]);
    return 0;
}
