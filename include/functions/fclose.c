/* fclose for ccheck. */
/* assumes: it gives 0 or -1, and the stream is not used after it */
#ifndef CCHECK_FUNCTION_fclose
#define CCHECK_FUNCTION_fclose
struct __file;

int fclose(struct __file *stream)
{
    return getchar() < 0 ? -1 : 0;
}
#endif
