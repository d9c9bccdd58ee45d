/* An int is read as a short, so the run ends at the read. */
int main(void)
{
    int word = 1;
    short *half = (short *)&word;
    int zero = 0;
    return *half / zero;
}
