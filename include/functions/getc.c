/* getc for ccheck. */
/* assumes: a character that is read from a stream is any one, or the end of input */
#ifndef CCHECK_FUNCTION_getc
#define CCHECK_FUNCTION_getc
struct __file;

int getc(struct __file *stream)
{
    return getchar();
}
#endif
