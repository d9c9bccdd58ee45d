/* entry: fibonacci */
/* The numbers of Fibonacci up to the last one that a table has, and one more. */
int fibonacci(int number)
{
    unsigned table[48];
    int i;
    if (number < 2 || number > 48)
        return 0;
    table[0] = 0;
    table[1] = 1;
    for (i = 2; i <= number; i++)
        table[i] = table[i - 1] + table[i - 2]; /* real: invptr */
    return table[number] > 100;
}
