/* stdint.h for ccheck: the types follow the data model by <limits.h> and <stddef.h>. */
#ifndef CCHECK_STDINT_H
#define CCHECK_STDINT_H
#include <limits.h>
#include <stddef.h>

typedef signed char int8_t;
typedef unsigned char uint8_t;
typedef short int16_t;
typedef unsigned short uint16_t;
#if INT_MAX > 32767
typedef int int32_t;
typedef unsigned int uint32_t;
#define INT32_C(c) c
#define UINT32_C(c) ((uint32_t)(c))
#else
typedef long int32_t;
typedef unsigned long uint32_t;
#define INT32_C(c) ((int32_t)(c))
#define UINT32_C(c) ((uint32_t)(c))
#endif
#if LONG_MAX > 2147483647
typedef long int64_t;
typedef unsigned long uint64_t;
typedef long intmax_t;
typedef unsigned long uintmax_t;
#else
typedef long long int64_t;
typedef unsigned long long uint64_t;
typedef long long intmax_t;
typedef unsigned long long uintmax_t;
#endif

typedef int8_t int_least8_t;
typedef int16_t int_least16_t;
typedef int32_t int_least32_t;
typedef int64_t int_least64_t;
typedef uint8_t uint_least8_t;
typedef uint16_t uint_least16_t;
typedef uint32_t uint_least32_t;
typedef uint64_t uint_least64_t;
typedef int8_t int_fast8_t;
typedef ptrdiff_t int_fast16_t;
#if INT_MAX > 32767
typedef ptrdiff_t int_fast32_t;
typedef size_t uint_fast32_t;
#else
typedef int32_t int_fast32_t;
typedef uint32_t uint_fast32_t;
#endif
typedef int64_t int_fast64_t;
typedef uint8_t uint_fast8_t;
typedef size_t uint_fast16_t;
typedef uint64_t uint_fast64_t;
typedef ptrdiff_t intptr_t;
typedef size_t uintptr_t;

#define INT8_MIN (-128)
#define INT8_MAX 127
#define UINT8_MAX 255
#define INT16_MIN (-32767-1)
#define INT16_MAX 32767
#define UINT16_MAX 65535
#define INT32_MIN (-2147483647-1)
#define INT32_MAX 2147483647
#define UINT32_MAX 4294967295u
#define INT64_MIN (-9223372036854775807ll-1)
#define INT64_MAX 9223372036854775807ll
#define UINT64_MAX 18446744073709551615ull
#define INTMAX_MIN INT64_MIN
#define INTMAX_MAX INT64_MAX
#define UINTMAX_MAX UINT64_MAX
#define INT_LEAST8_MAX INT8_MAX
#define INT_LEAST16_MAX INT16_MAX
#define INT_LEAST32_MAX INT32_MAX
#define INT_LEAST64_MAX INT64_MAX
#define UINT_LEAST8_MAX UINT8_MAX
#define UINT_LEAST16_MAX UINT16_MAX
#define UINT_LEAST32_MAX UINT32_MAX
#define UINT_LEAST64_MAX UINT64_MAX
#define SIZE_MAX ((size_t)-1)
#define UINTPTR_MAX ((uintptr_t)-1)
#define INTPTR_MAX ((intptr_t)(UINTPTR_MAX >> 1))
#define INTPTR_MIN (-INTPTR_MAX-1)
#define PTRDIFF_MAX ((ptrdiff_t)(SIZE_MAX >> 1))
#define PTRDIFF_MIN (-PTRDIFF_MAX-1)

#define INT8_C(c) c
#define INT16_C(c) c
#define INT64_C(c) ((int64_t)(c))
#define UINT8_C(c) c
#define UINT16_C(c) c
#define UINT64_C(c) ((uint64_t)(c))
#define INTMAX_C(c) ((intmax_t)(c))
#define UINTMAX_C(c) ((uintmax_t)(c))
#endif
