/* A table of squares, for other units: runs begin at `square_of`. */
#include "ring.h"

static int squares[RING_ROOM];

int square_of(int n)
{
    int i;
    for (i = 0; i < RING_ROOM; i = i + 1)
        squares[i] = i * i;
    return squares[n];
}
