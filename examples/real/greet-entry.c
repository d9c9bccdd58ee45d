/* An entry for greet.c: it is called without an argument, or with one of at most 63 characters. */
#include "greet.c"

int greet_entry(void)
{
    char program[8] = "greet";
    char first[64] = "";
    char *argv[3];
    argv[0] = program;
    argv[2] = NULL;
    if (fgets(first, sizeof first, stdin) == NULL) {
        argv[1] = NULL;
        return main(1, argv);
    }
    argv[1] = first;
    return main(2, argv);
}
