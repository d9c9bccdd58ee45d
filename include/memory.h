/* memory.h for ccheck. */
#include <string.h>
