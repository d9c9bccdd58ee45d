/* Room for as many bytes as there are numbers. */
#include <stdio.h>
#include <stdlib.h>

int main(void)
{
    int count = getchar();
    long *numbers;
    if (count < 1 || count > 100)
        return 1;
    numbers = (long *)malloc((unsigned)count); /* real: insufmem */
    free(numbers);
    return 0;
}
