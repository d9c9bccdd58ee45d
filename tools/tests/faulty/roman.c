/* Roman figures are looked up by their letters. */
#include <stdio.h>

int main(void)
{
    int worth[26] = {0};
    int sum = 0, c;
    worth['I' - 'A'] = 1;
    worth['V' - 'A'] = 5;
    worth['X' - 'A'] = 10;
    while ((c = getchar()) != EOF && c != '\n' && sum < 1000) {
        if (c < 'A')
            return 1;
        sum += worth[c - 'A']; /* real: invptr */
    }
    printf("%d\n", sum);
    return 0;
}
