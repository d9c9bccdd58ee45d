/* fputc for ccheck. */
/* assumes: a character is always written */
#ifndef CCHECK_FUNCTION_fputc
#define CCHECK_FUNCTION_fputc
struct __file;

int fputc(int c, struct __file *stream)
{
    return (unsigned char)c;
}
#endif
