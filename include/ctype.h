/* ctype.h for ccheck: the functions that ccheck does not have itself are in functions/. */
#ifndef CCHECK_CTYPE_H
#define CCHECK_CTYPE_H
int isxdigit(int c);
int isprint(int c);
int ispunct(int c);
int iscntrl(int c);
int isgraph(int c);
int isblank(int c);
int isascii(int c);
int toascii(int c);
#endif
