#include <stdio.h>

/* Adds the two digits of a line such as 1+2. */
int main(void)
{
    char line[8] = "";
    if (fgets(line, sizeof line, stdin) == NULL)
        return 1;
    if (line[1] != '+')
        return 1;
    printf("%d\n", line[0] - '0' + (line[2] - '0'));
    return 0;
}
