#include <string.h>

/* The bytes of a pointer are moved into characters, so the run ends at memcpy. */
int main(void)
{
    int value = 0;
    int *where = &value;
    char bytes[sizeof(int *)];
    memcpy(bytes, &where, sizeof(int *));
    return 1 / value;
}
