/* entry: is_free */
/* The last day of a leap year. */
static char taken[365];

int is_free(int year, int day)
{
    int days = year % 4 == 0 && (year % 100 != 0 || year % 400 == 0) ? 366 : 365;
    if (year < 1900 || year > 2100 || day < 1 || day > days)
        return -1;
    return taken[day - 1] == 0; /* real: invptr */
}
