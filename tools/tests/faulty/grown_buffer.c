/* A buffer grows, and nobody asks whether it did. */
#include <stdio.h>
#include <stdlib.h>

int main(void)
{
    int room = 4, used = 0, c;
    char *text = malloc(4);
    if (text == NULL)
        return 1;
    while ((c = getchar()) != EOF && used < 100) {
        if (used == room) {
            room = room * 2;
            text = realloc(text, (unsigned)room);
        }
        text[used] = (char)c; /* real: nullref */
        used++;
    }
    free(text);
    return 0;
}
