/* Room for the letters of the name, and none for its zero. */
#include <stdio.h>
#include <string.h>

int main(void)
{
    char line[40] = "", name[12];
    int length;
    if (fgets(line, sizeof line, stdin) == NULL)
        return 0;
    length = (int)strlen(line);
    if (length > 12)
        return 1;
    strcpy(name, line); /* real: libptr */
    puts(name);
    return 0;
}
