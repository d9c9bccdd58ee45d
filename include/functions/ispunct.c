/* ispunct for ccheck. */
#ifndef CCHECK_FUNCTION_ispunct
#define CCHECK_FUNCTION_ispunct

int ispunct(int c)
{
    return 33 <= c && c <= 126 && !isalnum(c);
}
#endif
