/* An int has 32 bits, so the run ends at the shift. */
int main(void)
{
    int count = 40;
    int zero = 0;
    int bits = 1 << count;
    return bits / zero;
}
