/* A figure of base 64 that is none gives -1. */
#include <stdio.h>

static int value_of(int c)
{
    if (c >= 'A' && c <= 'Z')
        return c - 'A';
    if (c >= 'a' && c <= 'z')
        return c - 'a' + 26;
    if (c >= '0' && c <= '9')
        return c - '0' + 52;
    if (c == '+')
        return 62;
    if (c == '/')
        return 63;
    return -1;
}

int main(void)
{
    int seen[64] = {0};
    int c;
    while ((c = getchar()) != EOF && c != '\n')
        seen[value_of(c)] = 1; /* real: invptr */
    return seen[0];
}
