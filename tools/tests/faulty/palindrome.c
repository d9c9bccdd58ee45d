/* Whether a line reads the same from its end; it may be empty. */
#include <stdio.h>
#include <string.h>

int main(void)
{
    char line[20] = "";
    int left = 0, right;
    if (fgets(line, sizeof line, stdin) == NULL)
        return 0;
    right = (int)strlen(line) - 2;
    if (line[left] != line[right]) /* real: invptr */
        puts("no");
    return 0;
}
