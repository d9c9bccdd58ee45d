/* A loop that goes one too far. */
int main(void)
{
    int square[10];
    int i;
    for (i = 0; i <= 10; i++)
        square[i] = i * i; /* real: invptr */
    return 0;
}
