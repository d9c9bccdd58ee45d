/* A session: HELO, then DATA, then a line of more than ten characters. */
#include <stdio.h>
#include <string.h>

int main(void)
{
    char line[32] = "", body[10];
    int state = 0;
    while (fgets(line, sizeof line, stdin)) {
        if (state == 0 && strcmp(line, "HELO\n") == 0)
            state = 1;
        else if (state == 1 && strcmp(line, "DATA\n") == 0)
            state = 2;
        else if (state == 2)
            strcpy(body, line); /* real: libptr */
    }
    return 0;
}
