/* Blocks are opened and closed; a table has room for four, and the fifth is only opened by `{`. */
#include <stdio.h>

int main(void)
{
    char kinds[4];
    int depth = 0, c;
    while ((c = getchar()) != EOF) {
        if (c == '[' && depth < 4) {
            kinds[depth] = ']';
            depth++;
        } else if (c == '{') {
            kinds[depth] = '}'; /* real: invptr */
            depth++;
        } else if (depth > 0 && c == kinds[depth - 1]) {
            depth--;
        }
    }
    return depth;
}
