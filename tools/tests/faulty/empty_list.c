/* The head of an empty list is taken. */
#include <stdio.h>
#include <stdlib.h>

struct node { int item; struct node *next; };

int main(void)
{
    struct node *head = NULL;
    struct node *one;
    int c;
    while ((c = getchar()) != EOF) {
        if (c == '<') {
            one = malloc(sizeof *one);
            if (one == NULL)
                return 1;
            one->item = c;
            one->next = head;
            head = one;
        } else if (c == '>') {
            one = head;
            head = one->next; /* real: nullref */
            free(one);
        }
    }
    return 0;
}
