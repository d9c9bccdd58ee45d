/* assert.h for ccheck: a condition that does not hold ends the run, as with the C library. */
#undef assert
#ifdef NDEBUG
#define assert(condition) ((void)0)
#else
#define assert(condition) ((condition) ? (void)0 : abort())
#endif
#ifndef CCHECK_ASSERT_H
#define CCHECK_ASSERT_H
#define static_assert _Static_assert
#endif
