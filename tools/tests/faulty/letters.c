/* Letters are counted, and small letters alone are thought of. */
#include <ctype.h>
#include <stdio.h>

int main(void)
{
    int count[26] = {0};
    int c;
    while ((c = getchar()) != EOF)
        if (isalpha(c))
            count[c - 'a'] = 1; /* real: invptr */
    return count[0];
}
