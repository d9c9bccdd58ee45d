/* unistd.h for ccheck: functions that give a number and change no memory of the program. */
#ifndef CCHECK_UNISTD_H
#define CCHECK_UNISTD_H
#include <sys/types.h>
#define STDIN_FILENO 0
#define STDOUT_FILENO 1
#define STDERR_FILENO 2
int access(const char *name, int mode);
int chdir(const char *name);
int close(int file);
int isatty(int file);
int unlink(const char *name);
int rmdir(const char *name);
pid_t getpid(void);
pid_t getppid(void);
uid_t getuid(void);
uid_t geteuid(void);
gid_t getgid(void);
gid_t getegid(void);
off_t lseek(int file, off_t offset, int from);
unsigned int sleep(unsigned int seconds);
unsigned int alarm(unsigned int seconds);
ssize_t write(int file, const void *from, size_t count);
#endif
