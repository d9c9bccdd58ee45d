/* The operator `%` sets no result. */
#include <stdio.h>

int main(void)
{
    int left = getchar(), sign = getchar(), right = getchar();
    int result;
    if (left < '0' || left > '9' || right < '1' || right > '9')
        return 1;
    switch (sign) {
    case '+':
        result = left + right;
        break;
    case '-':
        result = left - right;
        break;
    case '%':
        break;
    default:
        return 1;
    }
    printf("%d\n", result); /* real: uninitref */
    return 0;
}
