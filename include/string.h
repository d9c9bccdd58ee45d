/* string.h for ccheck: the functions that ccheck does not have itself are in functions/. */
#ifndef CCHECK_STRING_H
#define CCHECK_STRING_H
#include <stddef.h>
int memcmp(const void *a, const void *b, size_t n);
void *memchr(const void *s, int c, size_t n);
void *mempcpy(void *to, const void *from, size_t n);
char *stpcpy(char *to, const char *from);
char *strchr(const char *s, int c);
char *strrchr(const char *s, int c);
char *strstr(const char *s, const char *part);
size_t strspn(const char *s, const char *set);
size_t strcspn(const char *s, const char *set);
char *strpbrk(const char *s, const char *set);
int strncmp(const char *a, const char *b, size_t n);
int strcoll(const char *a, const char *b);
char *strncat(char *to, const char *from, size_t n);
size_t strnlen(const char *s, size_t n);
char *strdup(const char *s);
char *strndup(const char *s, size_t n);
char *strtok(char *s, const char *set);
char *strerror(int number);
#endif
