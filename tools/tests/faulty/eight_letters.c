/* strncpy writes no zero after a name of eight letters or more. */
#include <stdio.h>
#include <string.h>

int main(void)
{
    char line[64] = "", name[8];
    if (fgets(line, sizeof line, stdin) == NULL)
        return 0;
    strncpy(name, line, sizeof name);
    puts(name); /* real: nonnullcs */
    return 0;
}
