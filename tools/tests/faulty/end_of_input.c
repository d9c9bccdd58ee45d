/* The line is used where there was none. */
#include <stdio.h>

int main(void)
{
    char line[16];
    fgets(line, sizeof line, stdin);
    if (line[0] == 'y') /* real: uninitref */
        puts("yes");
    return 0;
}
