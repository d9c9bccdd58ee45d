/* Runs such as 3a are written out. */
#include <stdio.h>

int main(void)
{
    char out[16];
    int used = 0, count, c;
    while ((count = getchar()) >= '0' && count <= '9') {
        c = getchar();
        count -= '0';
        while (count > 0) {
            out[used] = (char)c; /* real: invptr */
            used++;
            count--;
        }
    }
    return 0;
}
