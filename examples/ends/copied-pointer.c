struct box { int *item; };
struct raw { char bytes[sizeof(int *)]; };

/* The bytes of a pointer are copied into characters, so the run ends at the assignment. */
int main(void)
{
    int value = 0;
    struct box box;
    struct raw raw;
    box.item = &value;
    raw = *(struct raw *)&box;
    return 1 / value;
}
