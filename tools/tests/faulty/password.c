/* Four letters in a row. */
#include <stdio.h>

int main(void)
{
    int *secret = NULL;
    if (getchar() == 'o')
        if (getchar() == 'p')
            if (getchar() == 'e')
                if (getchar() == 'n')
                    return *secret; /* real: nullref */
    return 0;
}
