/* Three of the one and five of the other. */
#include <stdio.h>

int main(void)
{
    int as = 0, bs = 0, c;
    while ((c = getchar()) != EOF && as + bs < 100) {
        if (c == 'a')
            as++;
        if (c == 'b')
            bs++;
    }
    if (as == 3 && bs == 5)
        return 1 / (as - 3); /* real: diverr */
    return 0;
}
