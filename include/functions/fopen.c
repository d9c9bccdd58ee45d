/* fopen for ccheck. */
/* assumes: it gives null or a stream, from which any characters are read */
#ifndef CCHECK_FUNCTION_fopen
#define CCHECK_FUNCTION_fopen
struct __file;

struct __file *fopen(const char *name, const char *mode)
{
    static char made;
    strlen(name);
    strlen(mode);
    return getchar() < 0 ? (struct __file *)0 : (struct __file *)&made;
}
#endif
