/* isblank for ccheck; isalpha looks at the range of its argument. */
#ifndef CCHECK_FUNCTION_isblank
#define CCHECK_FUNCTION_isblank

int isblank(int c)
{
    isalpha(c);
    return c == ' ' || c == '\t';
}
#endif
