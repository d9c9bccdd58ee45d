/* isprint for ccheck; isalpha looks at the range of its argument. */
#ifndef CCHECK_FUNCTION_isprint
#define CCHECK_FUNCTION_isprint

int isprint(int c)
{
    isalpha(c);
    return 32 <= c && c <= 126;
}
#endif
