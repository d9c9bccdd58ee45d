/* A stub. bool is int here, so (bool)2 is 2 and not 1. */
#define bool int
#define true 1
#define false 0
