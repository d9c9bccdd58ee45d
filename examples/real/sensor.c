#include <stdbool.h>
#include <stdint.h>

#ifndef SAMPLES
#error "define the number of samples: cc -DSAMPLES=4"
#endif

int32_t read_sensor(uint8_t channel);

/* The mean of some samples of a channel, or -1 where none can be read. */
int32_t mean_of(uint8_t channel)
{
    int32_t sum = 0;
    bool any = false;
    int i;
    for (i = 0; i < SAMPLES; i++) {
        int32_t sample = read_sensor(channel);
        if (sample >= 0) {
            sum = sum + sample;
            any = true;
        }
    }
    return any ? sum / SAMPLES : -1;
}
