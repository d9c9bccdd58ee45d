/* srandom for ccheck. */
#ifndef CCHECK_FUNCTION_srandom
#define CCHECK_FUNCTION_srandom

void srandom(unsigned int seed)
{
}
#endif
