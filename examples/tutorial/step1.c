#include <stdio.h>
#include <stdlib.h>
#include <string.h>
#include "words.h"

/* Reads a line, keeps a copy of it, and counts its letters. */
int main(void)
{
    char line[LINE];
    int count[26] = {0};
    struct line kept;
    size_t i;
    if (fgets(line, sizeof line, stdin) == NULL)
        return 0;
    kept.length = strlen(line);
    kept.text = malloc(kept.length + 1);
    if (kept.text == NULL)
        return 1;
    strcpy(kept.text, line);
    for (i = 0; i < kept.length; i++) {
        int letter = kept.text[i] - 'a';
        if (0 <= letter && letter < 26)
            count[letter]++;
    }
    printf("%d\n", count[0]);
    free(kept.text);
    return 0;
}
