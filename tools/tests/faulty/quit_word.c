/* One command has no handler. */
#include <stdio.h>
#include <string.h>

int main(void)
{
    char line[32];
    int value = 3;
    int *handler = &value;
    while (fgets(line, sizeof line, stdin)) {
        if (strcmp(line, "quit\n") == 0)
            return 0;
        if (strcmp(line, "reset\n") == 0)
            handler = NULL;
        printf("%d\n", *handler); /* real: nullref */
    }
    return 0;
}
