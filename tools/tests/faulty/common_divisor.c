/* entry: reduced */
/* A fraction is reduced, also 0 by 0. */
int reduced(int above, int below)
{
    int a = above, b = below, rest;
    if (above < 0 || below < 0)
        return -1;
    while (b > 0) {
        rest = a % b;
        a = b;
        b = rest;
    }
    return above / a; /* real: diverr */
}
