/* The type of size_t, without its name, which a unit may give itself. */
#ifndef CCHECK_SIZE
#define CCHECK_SIZE unsigned long
#endif
