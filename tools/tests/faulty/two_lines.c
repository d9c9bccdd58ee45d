/* Two lines are put into one buffer. */
#include <stdio.h>
#include <string.h>

int main(void)
{
    char first[16] = "", second[16] = "", both[24];
    if (fgets(first, sizeof first, stdin) == NULL || fgets(second, sizeof second, stdin) == NULL)
        return 0;
    strcpy(both, first);
    strcat(both, second); /* real: libptr */
    puts(both);
    return 0;
}
