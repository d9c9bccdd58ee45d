/* stdio.h for ccheck: functions on streams are in functions/, and all streams read the same input. */
#ifndef CCHECK_STDIO_H
#define CCHECK_STDIO_H
#include <stddef.h>
#define EOF (-1)
#define BUFSIZ 8192
#define FILENAME_MAX 4096
#define SEEK_SET 0
#define SEEK_CUR 1
#define SEEK_END 2
struct __file { char b; };
typedef struct __file FILE;
static struct __file __stdin, __stdout, __stderr;
#define stdin (&__stdin)
#define stdout (&__stdout)
#define stderr (&__stderr)
int fgetc(FILE *stream);
int getc(FILE *stream);
int ungetc(int c, FILE *stream);
int fputc(int c, FILE *stream);
int putc(int c, FILE *stream);
int fputs(const char *s, FILE *stream);
size_t fread(void *to, size_t size, size_t count, FILE *stream);
size_t fwrite(const void *from, size_t size, size_t count, FILE *stream);
FILE *fopen(const char *name, const char *mode);
int fclose(FILE *stream);
int fflush(FILE *stream);
int feof(FILE *stream);
int ferror(FILE *stream);
void clearerr(FILE *stream);
void rewind(FILE *stream);
int fseek(FILE *stream, long offset, int from);
long ftell(FILE *stream);
void perror(const char *s);
int remove(const char *name);
int rename(const char *from, const char *to);
#endif
