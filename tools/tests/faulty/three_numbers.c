/* entry: lock */
/* A lock with three numbers. */
int lock(int first, int second, int third)
{
    int *door = 0;
    if (first == 7 && second == 1100 && third == -13)
        return *door; /* real: nullref */
    return 0;
}
