/* A byte from 128 on is negative as a plain char. */
#include <ctype.h>
#include <stdio.h>

int main(void)
{
    char line[16] = "";
    int at;
    if (fgets(line, sizeof line, stdin) == NULL)
        return 0;
    for (at = 0; line[at] != 0; at++)
        if (isupper(line[at])) /* real: chrsgnext */
            line[at] = (char)tolower((unsigned char)line[at]);
    puts(line);
    return 0;
}
