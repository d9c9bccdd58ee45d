/* The twelfth month has no place in a table that begins at 0. */
#include <stdio.h>

int main(void)
{
    int days[12] = {31, 28, 31, 30, 31, 30, 31, 31, 30, 31, 30, 31};
    int month = 0, c;
    while ((c = getchar()) >= '0' && c <= '9' && month < 100)
        month = month * 10 + (c - '0');
    if (month < 1 || month > 12)
        return 1;
    return days[month]; /* real: invptr */
}
