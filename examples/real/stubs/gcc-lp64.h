/* A few of the macros that gcc predefines on 64-bit Linux: `cc -dM -E - </dev/null` prints all of them. */
#define __INT_MAX__ 2147483647
#define __LONG_MAX__ 9223372036854775807L
#define __ORDER_LITTLE_ENDIAN__ 1234
#define __ORDER_BIG_ENDIAN__ 4321
#define __BYTE_ORDER__ __ORDER_LITTLE_ENDIAN__
