/* signal.h for ccheck: the numbers of signals. Handlers are calls through pointers and are not accepted. */
#ifndef CCHECK_SIGNAL_H
#define CCHECK_SIGNAL_H
typedef int sig_atomic_t;
#define SIGHUP 1
#define SIGINT 2
#define SIGQUIT 3
#define SIGILL 4
#define SIGABRT 6
#define SIGFPE 8
#define SIGKILL 9
#define SIGSEGV 11
#define SIGPIPE 13
#define SIGALRM 14
#define SIGTERM 15
int raise(int number);
#endif
