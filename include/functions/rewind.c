/* rewind for ccheck. */
#ifndef CCHECK_FUNCTION_rewind
#define CCHECK_FUNCTION_rewind
struct __file;

void rewind(struct __file *stream)
{
}
#endif
