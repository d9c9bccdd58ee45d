#include <stdio.h>
#include <string.h>

/* Greets the person whom the second argument names. */
int main(int argc, char **argv)
{
    char name[32] = "";
    if (argc < 1)
        return 1;
    strcpy(name, argv[1]);
    printf("hello, %s\n", name);
    return 0;
}
