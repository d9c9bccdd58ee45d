/* The next node is read from a node that was freed. */
#include <stdio.h>
#include <stdlib.h>

struct node { struct node *next; };

int main(void)
{
    struct node *head = NULL;
    int c;
    while ((c = getchar()) == '+') {
        struct node *one = malloc(sizeof *one);
        if (one == NULL)
            break;
        one->next = head;
        head = one;
    }
    while (head != NULL) {
        free(head);
        head = head->next; /* real: accfree */
    }
    return 0;
}
