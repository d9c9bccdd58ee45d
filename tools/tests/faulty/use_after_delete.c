/* The command d frees what the command p prints. */
#include <stdio.h>
#include <stdlib.h>

int main(void)
{
    int *item = malloc(sizeof *item);
    int c;
    if (item == NULL)
        return 1;
    *item = 7;
    while ((c = getchar()) != EOF) {
        if (c == 'd') {
            free(item);
        } else if (c == 'p') {
            printf("%d\n", *item); /* real: accfree */
        } else if (c == 'q') {
            return 0;
        }
    }
    return 0;
}
