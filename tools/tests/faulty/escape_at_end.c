/* A backslash is the last character of the line. */
#include <stdio.h>

int main(void)
{
    char line[12] = "", out[12];
    int at = 0, used = 0;
    if (fgets(line, sizeof line, stdin) == NULL)
        return 0;
    while (line[at] != 0) { /* real: invptr */
        if (line[at] == '\\')
            at++;
        out[used] = line[at];
        used++;
        at++;
    }
    return used;
}
