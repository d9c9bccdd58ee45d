/* A letter of three bytes whose bytes are not all there. */
#include <stdio.h>

int main(void)
{
    unsigned char text[8] = {0};
    int used = 0, at = 0, letters = 0, c;
    while (used < 8 && (c = getchar()) != EOF) {
        text[used] = (unsigned char)c;
        used++;
    }
    while (at < used) {
        if (text[at] >= 0xE0 && (text[at + 1] & 0xC0) == 0x80) /* real: invptr */
            at += 3;
        else
            at++;
        letters++;
    }
    return letters;
}
