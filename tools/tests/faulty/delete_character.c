/* A character is deleted at a place that comes with the line. */
#include <stdio.h>
#include <string.h>

int main(void)
{
    char line[16] = "";
    int place;
    if (fgets(line, sizeof line, stdin) == NULL)
        return 0;
    place = line[0] - '0';
    if (place < 0 || place > 9)
        return 1;
    memmove(line + place, line + place + 1, (line[1] == '+' ? 16 : 15) - (unsigned)place); /* real: libptr */
    puts(line);
    return 0;
}
