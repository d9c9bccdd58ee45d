/* fflush for ccheck. */
/* assumes: it gives 0 or -1 */
#ifndef CCHECK_FUNCTION_fflush
#define CCHECK_FUNCTION_fflush
struct __file;

int fflush(struct __file *stream)
{
    return getchar() < 0 ? -1 : 0;
}
#endif
