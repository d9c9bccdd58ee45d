/* Where brackets were opened; eight may be open. */
#include <stdio.h>

int main(void)
{
    int opened[8];
    int depth = 0, at = 0, c;
    while (at < 500 && (c = getchar()) != EOF) {
        if (c == '(') {
            opened[depth] = at; /* real: invptr */
            depth++;
        } else if (c == ')' && depth > 0) {
            depth--;
            printf("%d\n", opened[depth]);
        }
        at++;
    }
    return 0;
}
