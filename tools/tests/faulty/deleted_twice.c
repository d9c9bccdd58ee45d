/* Two deletions of the same slot. */
#include <stdio.h>
#include <stdlib.h>

int main(void)
{
    char *slots[4] = {NULL, NULL, NULL, NULL};
    int command, slot;
    while ((command = getchar()) != EOF) {
        slot = getchar() - '0';
        if (slot < 0 || slot > 3)
            return 1;
        if (command == 'a' && slots[slot] == NULL)
            slots[slot] = malloc(4);
        else if (command == 'd')
            free(slots[slot]); /* real: dblfree */
    }
    return 0;
}
