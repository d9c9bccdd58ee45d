/* srand for ccheck. */
#ifndef CCHECK_FUNCTION_srand
#define CCHECK_FUNCTION_srand

void srand(unsigned int seed)
{
}
#endif
