/* entry: find */
/* A binary search that looks one too far. */
static int sorted[8] = {1, 3, 5, 7, 9, 11, 13, 15};

int find(int number)
{
    int low = 0, high = 8;
    while (low <= high) {
        int middle = (low + high) / 2;
        if (sorted[middle] == number) /* real: invptr */
            return middle;
        if (sorted[middle] < number)
            low = middle + 1;
        else
            high = middle - 1;
    }
    return -1;
}
