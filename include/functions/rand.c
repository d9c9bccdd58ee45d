/* rand for ccheck. */
/* assumes: a random number is any number from 0 to RAND_MAX */
#ifndef CCHECK_FUNCTION_rand
#define CCHECK_FUNCTION_rand

int rand(void)
{
    unsigned int n = getchar() & 127;
    n = n * 256 + (getchar() & 255);
    n = n * 256 + (getchar() & 255);
    n = n * 256 + (getchar() & 255);
    return (int)n;
}
#endif
