/* malloc.h for ccheck. */
#include <stdlib.h>
