/* Writes the two-wire messages of settings, and reads them back: pairs of register and value on standard input, in decimal, a pair a line. Each
 * message is shown in hex, and then the registers as the messages leave them. */
#include "fluturenc.h"

#include <stdio.h>
#include <stdlib.h>

#define MOST 128

int main(void)
{
    uint8_t pairs[2 * MOST], bytes[3 * MOST], wrong[3], refusal;
    size_t used = 0, length = fluturenc_sensor_length(), written, at;
    uint8_t *sensor = malloc(length);
    unsigned index, value;

    if (sensor == NULL || fluturenc_sensor_reset(sensor, length) != 0)
        return EXIT_FAILURE;
    while (used < sizeof pairs && scanf("%u %u", &index, &value) == 2 && index < 256 && value < 256) {
        pairs[used++] = (uint8_t)index;
        pairs[used++] = (uint8_t)value;
    }
    refusal = fluturenc_messages(pairs, used, bytes, sizeof bytes, &written);
    if (refusal != 0) {
        fprintf(stderr, "no messages: %u\n", (unsigned)refusal);
        return EXIT_FAILURE;
    }
    for (at = 0; at < written; at += 3) {
        if (fluturenc_sensor_message(sensor, length, bytes + at, 3) != 0)
            return EXIT_FAILURE;
        printf("%02x %02x %02x\n", bytes[at], bytes[at + 1], bytes[at + 2]);
    }
    for (at = 0; at < used; at += 2)
        printf("register %u is %u\n", (unsigned)pairs[at], (unsigned)sensor[pairs[at]]);

    /* A read of another value is refused, and changes nothing. */
    wrong[0] = FLUTURENC_READ_ADDRESS;
    wrong[1] = sensor[FLUTURENC_SENSOR_INDEX];
    wrong[2] = sensor[wrong[1]] ^ 1;
    refusal = fluturenc_sensor_message(sensor, length, wrong, sizeof wrong);
    if (refusal != 0)
        printf("a read of %02x at %u: refused, %u\n", wrong[2], (unsigned)wrong[1], (unsigned)refusal);
    free(sensor);
    return EXIT_SUCCESS;
}
