/* The third allocation fails, and what was never allocated is freed. */
#include <stdlib.h>

int main(void)
{
    char *parts[4];
    int made, i;
    for (made = 0; made < 4; made++) {
        parts[made] = malloc(16);
        if (parts[made] == NULL && made == 2)
            break;
        if (parts[made] == NULL)
            return 1;
    }
    for (i = 0; i < 4; i++)
        free(parts[i]); /* real: uninitref */
    return 0;
}
