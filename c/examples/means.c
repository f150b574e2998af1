/* Half-line means of a VV5300 capture, the bytes of an 8-wire bus on standard input, as the program `means` writes them: a row for each visible
 * line, with the sensor's means, the exact ones, and 64 times the sensor's minus the sum of each half. */
#include "fluturenc.h"

#include <stdio.h>
#include <stdlib.h>

static uint8_t line[FLUTURENC_VV5300_BODY];

/* The row of a visible line, whose body is in the line buffer, by what its gap was answered. */
static void show(unsigned number, uint64_t gap)
{
    uint8_t first = fluturenc_gap_first(gap), second = fluturenc_gap_second(gap);
    double mean1, mean2;
    int32_t beside1, beside2;

    if (!fluturenc_is_gap(gap))
        printf("%u refused: 9, bad gap\n", number);
    else if (fluturenc_half_means(FLUTURENC_VV5300, FLUTURENC_VL, line, sizeof line, first, second, &mean1, &mean2, &beside1, &beside2) == 0)
        printf("%u %u %u %.6f %.6f %ld %ld\n", number, (unsigned)first, (unsigned)second, mean1, mean2, (long)beside1, (long)beside2);
}

int main(void)
{
    uint8_t nibbles[2];
    size_t length = fluturenc_state_length(), at, taken;
    uint8_t *state = malloc(length);
    int visible = -1, byte;
    uint64_t answer;

    if (state == NULL || fluturenc_open(FLUTURENC_VV5300, state, length) != 0)
        return EXIT_FAILURE;
    puts("line sensor1 sensor2 mean1 mean2 difference1 difference2");
    do {
        byte = getchar();
        nibbles[0] = (uint8_t)(byte >> 4 & 15);
        nibbles[1] = (uint8_t)(byte & 15);
        for (at = 0; at < sizeof nibbles; at += taken) {
            if (byte == EOF) {
                answer = fluturenc_finish(state, length);
                taken = sizeof nibbles;
            } else {
                answer = fluturenc_feed(state, length, nibbles + at, sizeof nibbles - at, line, sizeof line, &taken);
            }
            if (answer == 0)
                continue;
            if (visible >= 0)
                show((unsigned)visible, answer);
            visible = fluturenc_is_line(answer) && fluturenc_line_kind(answer) == FLUTURENC_VL ? fluturenc_line_number(answer) : -1;
        }
    } while (byte != EOF);
    free(state);
    return EXIT_SUCCESS;
}
