/* entry: absolute */
/* The least number has no absolute value. */
int absolute(int number)
{
    if (number < 0)
        return -number; /* real: intoflow */
    return number;
}
