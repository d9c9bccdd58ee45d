#include <stdio.h>

/* A line of no bytes is asked for, so the run ends at fgets. */
int main(void)
{
    char line[8];
    int zero = 0;
    fgets(line, 0, stdin);
    return 1 / zero;
}
