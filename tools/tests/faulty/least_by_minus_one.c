/* entry: share */
/* The least number divided by -1. */
int share(int number, int parts)
{
    if (parts == 0)
        return 0;
    return number / parts; /* real: diverr */
}
