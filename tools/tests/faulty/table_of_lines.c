/* A text of more than twenty lines. */
#include <stdio.h>

int main(void)
{
    int begins[20];
    int lines = 0, at = 0, c;
    while ((c = getchar()) != EOF) {
        at = (at + 1) % 4096;
        if (c == '\n') {
            begins[lines] = at; /* real: invptr */
            lines++;
        }
    }
    return 0;
}
