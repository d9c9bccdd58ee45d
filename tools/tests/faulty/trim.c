/* The spaces at the end of a line are cut off. */
#include <ctype.h>
#include <stdio.h>
#include <string.h>

int main(void)
{
    char line[32] = "";
    int last;
    if (fgets(line, sizeof line, stdin) == NULL)
        return 0;
    last = (int)strlen(line) - 1;
    while (isspace((unsigned char)line[last])) /* real: invptr */
        last--;
    line[last + 1] = 0;
    puts(line);
    return 0;
}
