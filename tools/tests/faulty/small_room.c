/* Small texts are kept in an array, which is freed like the others. */
#include <stdio.h>
#include <stdlib.h>

int main(void)
{
    char small[4] = {0};
    char *room = small;
    int size = getchar();
    if (size < 0)
        return 0;
    if (size >= 4)
        room = malloc(256);
    if (room == NULL)
        return 1;
    room[0] = 'x';
    free(room); /* real: xfree */
    return 0;
}
