/* stdnoreturn.h for ccheck. */
#ifndef CCHECK_STDNORETURN_H
#define CCHECK_STDNORETURN_H
#define noreturn
#endif
