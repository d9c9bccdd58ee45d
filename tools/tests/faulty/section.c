/* The name of a section between brackets has at most fifteen letters. */
#include <stdio.h>

int main(void)
{
    char name[16];
    int c, used;
    while ((c = getchar()) != EOF) {
        if (c != '[')
            continue;
        used = 0;
        while ((c = getchar()) != EOF && c != ']') {
            name[used] = (char)c; /* real: invptr */
            used++;
        }
    }
    return 0;
}
