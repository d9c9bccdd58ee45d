/* A line is copied to a buffer that is shorter. */
#include <stdio.h>
#include <string.h>

int main(void)
{
    char line[80], name[40];
    if (fgets(line, sizeof line, stdin) == NULL)
        return 0;
    strcpy(name, line); /* real: libptr */
    puts(name);
    return 0;
}
