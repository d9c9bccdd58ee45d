#include <string.h>

/* The text is copied onto itself, so the run ends at strcpy. */
int main(void)
{
    char text[8] = "abc";
    int zero = 0;
    strcpy(text + 1, text);
    return 1 / zero;
}
