/* The longest word of a text, in a buffer of twelve. */
#include <stdio.h>

int main(void)
{
    char word[12];
    int length = 0, c;
    while ((c = getchar()) != EOF) {
        if (c == ' ' || c == '\n') {
            length = 0;
        } else {
            word[length] = (char)c; /* real: invptr */
            length++;
        }
    }
    return 0;
}
