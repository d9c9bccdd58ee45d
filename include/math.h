/* math.h for ccheck: nothing. Floating types are not accepted. */
