/* random for ccheck. */
/* assumes: a random number is any number from 0 to 2147483647 */
#ifndef CCHECK_FUNCTION_random
#define CCHECK_FUNCTION_random

long random(void)
{
    unsigned int n = getchar() & 127;
    n = n * 256 + (getchar() & 255);
    n = n * 256 + (getchar() & 255);
    n = n * 256 + (getchar() & 255);
    return (long)n;
}
#endif
