/* A default text is changed in its place. */
#include <stdio.h>

int main(void)
{
    char line[16] = "";
    char *text = "default";
    if (fgets(line, sizeof line, stdin) == NULL)
        return 0;
    if (line[0] != '\n')
        text = line;
    if (text[0] == 'd')
        text[0] = 'D'; /* real: strmod */
    puts(text);
    return 0;
}
