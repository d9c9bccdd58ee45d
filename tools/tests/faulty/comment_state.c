/* A small automaton: `<!--` opens, and only then the text is counted. */
#include <stdio.h>

int main(void)
{
    int state = 0, kept[6], used = 0, c;
    while ((c = getchar()) != EOF) {
        switch (state) {
        case 0:
            state = c == '<' ? 1 : 0;
            break;
        case 1:
            state = c == '!' ? 2 : 0;
            break;
        case 2:
            state = c == '-' ? 3 : 0;
            break;
        case 3:
            state = c == '-' ? 4 : 0;
            break;
        default:
            kept[used] = c; /* real: invptr */
            used++;
            break;
        }
    }
    return 0;
}
