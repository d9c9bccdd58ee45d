#include "share.c"

/* Any number of people, then any amount. */
int share_entry(int number, int amount)
{
    set_people(number);
    return share(amount);
}
