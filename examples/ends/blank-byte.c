/* An uninitialized byte is read as unsigned char, so the run ends at the read. */
int main(void)
{
    unsigned char flags;
    int zero = 0;
    int first = flags;
    return first / zero;
}
