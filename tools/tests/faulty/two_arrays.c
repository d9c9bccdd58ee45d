/* Places in two arrays are compared. */
#include <stdio.h>

int main(void)
{
    char left[8] = {0}, right[8] = {0};
    char *place = left;
    int c = getchar();
    if (c == '/')
        place = right;
    return place < left + 4; /* real: ptrobj */
}
