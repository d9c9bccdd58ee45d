/* stdarg.h for ccheck: the type alone. A function with a variable number of arguments is not accepted. */
#ifndef CCHECK_STDARG_H
#define CCHECK_STDARG_H
typedef char *va_list;
#endif
