/* A byte of a pointer is read as a character, so the run ends at the read. */
int main(void)
{
    int value = 0;
    int *where = &value;
    int first = *(char *)&where;
    return first / value;
}
