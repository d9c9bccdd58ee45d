/* A stub for the data model lp64, with the types that sensor.c uses. */
typedef unsigned char uint8_t;
typedef int int32_t;
