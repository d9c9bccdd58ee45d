/* The average of the last characters. */
#include <stdio.h>
#include "ring.h"

int main(void)
{
    struct ring ring;
    int sum = 0;
    int i;
    ring_clear(&ring);
    for (;;) {
        int c = getchar();
        if (c < 0)
            break;
        ring_put(&ring, c);
    }
    for (i = 0; i < ring.count; i = i + 1)
        sum = (sum + ring.items[i]) % 2048;
    printf("%d\n", sum / ring.count);
    return 0;
}
