/* The size of an allocation comes from input. */
#include <stdio.h>
#include <stdlib.h>

int main(void)
{
    int size = getchar();
    char *room;
    if (size != '#')
        return 1;
    size = getchar();
    if (size < 1)
        return 1;
    room = malloc((unsigned)size); /* real: taintsink */
    free(room);
    return 0;
}
