/* sensor.c as `cc -DSAMPLES=4` compiles it, with a stub for the function of another unit. */
#define SAMPLES 4
#include "sensor.c"
#include <stdio.h>

/* Assumed: a sensor gives -1 to 255. */
int32_t read_sensor(uint8_t channel)
{
    return getchar();
}
