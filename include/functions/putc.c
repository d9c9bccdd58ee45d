/* putc for ccheck. */
/* assumes: a character is always written */
#ifndef CCHECK_FUNCTION_putc
#define CCHECK_FUNCTION_putc
struct __file;

int putc(int c, struct __file *stream)
{
    return (unsigned char)c;
}
#endif
