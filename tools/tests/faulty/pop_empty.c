/* A plus sign with fewer than two numbers. */
#include <stdio.h>

int main(void)
{
    int stack[64];
    int top = 0, c;
    while ((c = getchar()) != EOF && top < 64) {
        if (c >= '0' && c <= '9') {
            stack[top] = c - '0';
            top++;
        } else if (c == '+') {
            stack[top - 2] = stack[top - 2] + stack[top - 1]; /* real: invptr */
            top--;
        }
    }
    return 0;
}
