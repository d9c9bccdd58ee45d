/* Digits are pushed to a stack of eight. */
#include <stdio.h>

int main(void)
{
    int stack[8];
    int top = 0, c;
    while ((c = getchar()) != EOF) {
        if (c >= '0' && c <= '9') {
            stack[top] = c - '0'; /* real: invptr */
            top++;
        } else if (c == '+' && top >= 2) {
            stack[top - 2] = stack[top - 2] + stack[top - 1];
            top--;
        }
    }
    return top > 0 ? stack[0] : 0;
}
