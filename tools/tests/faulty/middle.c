/* entry: middle */
/* The middle of two numbers, whose sum may be too large. */
int middle(int low, int high)
{
    if (low < 0 || high < low)
        return -1;
    return (low + high) / 2; /* real: intoflow */
}
