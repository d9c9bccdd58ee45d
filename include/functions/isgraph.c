/* isgraph for ccheck; isalpha looks at the range of its argument. */
#ifndef CCHECK_FUNCTION_isgraph
#define CCHECK_FUNCTION_isgraph

int isgraph(int c)
{
    isalpha(c);
    return 33 <= c && c <= 126;
}
#endif
