/* Letters are put in their order into an array of six. */
#include <stdio.h>

int main(void)
{
    int sorted[6] = {0};
    int used = 0, c, at;
    while ((c = getchar()) != EOF && c != '.') {
        if (c < 'a' || c > 'z')
            continue;
        at = used;
        while (at > 0 && sorted[at - 1] > c) {
            sorted[at] = sorted[at - 1]; /* real: invptr */
            at--;
        }
        if (at < 6)
            sorted[at] = c;
        used++;
    }
    return 0;
}
