/* entry: since_reform */
/* The year of the reform itself. */
int since_reform(int year)
{
    if (year < 0 || year > 3000)
        return 0;
    return 100000 / (year - 1582); /* real: diverr */
}
