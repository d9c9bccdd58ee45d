/* clearerr for ccheck. */
#ifndef CCHECK_FUNCTION_clearerr
#define CCHECK_FUNCTION_clearerr
struct __file;

void clearerr(struct __file *stream)
{
}
#endif
