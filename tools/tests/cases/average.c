#include <stdio.h>

/* The average of up to ten characters. */
int main(void)
{
    int sum = 0;
    int count = 0;
    while (count < 10) {
        int c = getchar();
        if (c < 0)
            break;
        sum = sum + c;
        count = count + 1;
    }
    return sum / count;
}
