#include <string.h>

/* Bytes that are not a pointer are read as one, so the run ends at the read in the condition. */
int main(void)
{
    int *where;
    int zero = 0;
    memset(&where, 1, sizeof(int *));
    if (where == NULL)
        return 1;
    return 1 / zero;
}
