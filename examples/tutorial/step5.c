#include <stdio.h>
#include <stdlib.h>
#include <string.h>
#include "words.h"

/* Reads a line, keeps a copy of it, and counts its letters. */
int main(void)
{
    char line[LINE];
    int count[26] = {0};
    char *text;
    size_t length;
    size_t i;
    if (fgets(line, sizeof line, stdin) == NULL)
        return 0;
    length = strlen(line);
    text = calloc(sizeof line, 1);
    if (text == NULL)
        return 1;
    strcpy(text, line);
    for (i = 0; i < length; i++) {
        int letter = text[i] - 'a';
        if (0 <= letter && letter < 26) {
            int seen = count[letter];
            if (seen < LINE)
                count[letter] = seen + 1;
        }
    }
    printf("%d\n", count[0]);
    free(text);
    return 0;
}
