/* Copies the first letters of each line. */
#include <stdio.h>
#include <string.h>

int main(void)
{
    char line[16];
    char first[4];
    while (fgets(line, sizeof line, stdin)) {
        strcpy(first, line);
        puts(first);
    }
    return 0;
}
