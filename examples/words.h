#ifndef WORDS_H
#define WORDS_H
#define LINE 64
struct line { char *text; size_t length; };
#endif
