/* A line without `=`. */
#include <stdio.h>

int main(void)
{
    char line[24] = "";
    int at = 0;
    if (fgets(line, sizeof line, stdin) == NULL)
        return 0;
    while (line[at] != '=') /* real: invptr */
        at++;
    line[at] = 0;
    puts(line);
    return 0;
}
