/* entry: factorial */
/* Thirteen factorial is no int. */
int factorial(int number)
{
    int result = 1, i;
    if (number < 0 || number > 20)
        return -1;
    for (i = 2; i <= number; i++)
        result = result * i; /* real: intoflow */
    return result;
}
