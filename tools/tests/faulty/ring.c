/* A ring of five whose index is set back one too late. */
#include <stdio.h>

int main(void)
{
    int ring[5] = {0};
    int next = 0, c;
    while ((c = getchar()) != EOF) {
        ring[next] = c; /* real: invptr */
        next++;
        if (next > 5)
            next = 0;
    }
    return ring[0];
}
