/* feof for ccheck. */
/* assumes: it gives 0 or 1 */
#ifndef CCHECK_FUNCTION_feof
#define CCHECK_FUNCTION_feof
struct __file;

int feof(struct __file *stream)
{
    return getchar() < 0;
}
#endif
