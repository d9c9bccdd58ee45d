/* ungetc for ccheck. */
/* assumes: a character that is put back is not the next one that is read */
#ifndef CCHECK_FUNCTION_ungetc
#define CCHECK_FUNCTION_ungetc
struct __file;

int ungetc(int c, struct __file *stream)
{
    return c == -1 ? -1 : (unsigned char)c;
}
#endif
