/* The pointer that was moved over spaces is freed. */
#include <stdio.h>
#include <stdlib.h>
#include <string.h>

int main(void)
{
    char line[16] = "";
    char *text;
    if (fgets(line, sizeof line, stdin) == NULL)
        return 0;
    text = malloc(16);
    if (text == NULL)
        return 1;
    strcpy(text, line);
    while (*text == ' ')
        text++;
    puts(text);
    free(text); /* real: xfree */
    return 0;
}
