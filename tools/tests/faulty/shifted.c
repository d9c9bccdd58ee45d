/* entry: scaled */
/* A negative number is shifted to the left. */
int scaled(int number, int places)
{
    if (places < 0 || places > 4 || number > 1000)
        return 0;
    return number << places; /* real: intoflow */
}
