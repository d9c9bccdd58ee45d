/* ferror for ccheck. */
/* assumes: it gives 0 or 1 */
#ifndef CCHECK_FUNCTION_ferror
#define CCHECK_FUNCTION_ferror
struct __file;

int ferror(struct __file *stream)
{
    return getchar() < 0;
}
#endif
