/* time for ccheck. */
/* assumes: the time is any number that is not negative */
#ifndef CCHECK_FUNCTION_time
#define CCHECK_FUNCTION_time

long time(long *to)
{
    unsigned int n = getchar() & 127;
    n = n * 256 + (getchar() & 255);
    n = n * 256 + (getchar() & 255);
    n = n * 256 + (getchar() & 255);
    if (to != 0)
        *to = (long)n;
    return (long)n;
}
#endif
