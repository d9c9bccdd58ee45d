/* The option -n takes a number, and 0 is one. */
#include <stdio.h>
#include <string.h>

int main(void)
{
    char line[32] = "";
    int parts = 1, at = 3;
    if (fgets(line, sizeof line, stdin) == NULL)
        return 0;
    if (line[0] == '-' && line[1] == 'n' && line[2] == ' ') {
        parts = 0;
        while (line[at] >= '0' && line[at] <= '9' && parts < 1000) {
            parts = parts * 10 + (line[at] - '0');
            at++;
        }
    }
    return 1000 / parts; /* real: diverr */
}
