/* fgetc for ccheck. */
/* assumes: a character that is read from a stream is any one, or the end of input */
#ifndef CCHECK_FUNCTION_fgetc
#define CCHECK_FUNCTION_fgetc
struct __file;

int fgetc(struct __file *stream)
{
    return getchar();
}
#endif
