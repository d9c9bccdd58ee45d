/* A copy of a line is kept, and the older one is freed where there is no memory for the new one. */
#include <stdio.h>
#include <stdlib.h>
#include <string.h>

int main(void)
{
    char line[16] = "";
    char *kept = NULL;
    while (fgets(line, sizeof line, stdin)) {
        char *copy = malloc(16);
        if (copy == NULL) {
            free(kept);
            break;
        }
        strcpy(copy, line);
        free(kept);
        kept = copy;
    }
    if (kept != NULL) /* real: accfree */
        puts(kept);
    return 0;
}
