/* Where the fields of a line begin; there are five. */
#include <stdio.h>

int main(void)
{
    char line[64] = "";
    int begins[5] = {0};
    int field = 0, at;
    if (fgets(line, sizeof line, stdin) == NULL)
        return 0;
    for (at = 0; at < 63 && line[at] != 0; at++)
        if (line[at] == ',') {
            field++;
            begins[field] = at + 1; /* real: invptr */
        }
    return begins[0];
}
