/* Compares two lists of lines: a row of standard input is a list, 1 or 2, a line's kind and number, the value that its body is filled with, and a
 * place of it with the value there. */
#include "fluturenc.h"

#include <stdio.h>
#include <stdlib.h>
#include <string.h>

#define MOST 100

static uint8_t lists[2][MOST * FLUTURENC_LINE], differences[MOST * FLUTURENC_MOST_DIFFERENCES];

int main(void)
{
    unsigned list, kind, number, fill, place, value;
    size_t used[2] = {0, 0}, written, at;
    uint8_t *line, refusal;

    while (scanf("%u %u %u %u %u %u", &list, &kind, &number, &fill, &place, &value) == 6) {
        if (list < 1 || list > 2 || place >= FLUTURENC_VV5404_BODY || used[list - 1] == sizeof lists[0])
            return EXIT_FAILURE;
        line = lists[list - 1] + used[list - 1];
        line[0] = (uint8_t)kind;
        line[1] = (uint8_t)(number >> 8);
        line[2] = (uint8_t)number;
        memset(line + 3, (int)fill, FLUTURENC_VV5404_BODY);
        line[3 + place] = (uint8_t)value;
        used[list - 1] += FLUTURENC_LINE;
    }
    refusal = fluturenc_compare(lists[0], used[0], lists[1], used[1], differences, sizeof differences, &written);
    if (refusal != 0) {
        fprintf(stderr, "not compared: %u\n", (unsigned)refusal);
        return EXIT_FAILURE;
    }
    for (at = 0; at < written;) {
        const uint8_t *d = differences + at;

        printf("%u ", (unsigned)(d[1] << 8 | d[2]));
        switch (d[0]) {
        case FLUTURENC_ONLY_FIRST:
        case FLUTURENC_ONLY_SECOND:
            printf("only in the %s, kind %u\n", d[0] == FLUTURENC_ONLY_FIRST ? "first" : "second", (unsigned)d[3]);
            at += 4 + FLUTURENC_VV5404_BODY;
            break;
        case FLUTURENC_KINDS_DIFFER:
            printf("kinds %u %u\n", (unsigned)d[3], (unsigned)d[4]);
            at += 5;
            break;
        default:
            printf("place %u: %u %u\n", (unsigned)(d[3] << 8 | d[4]), (unsigned)d[5], (unsigned)d[6]);
            at += 7;
        }
    }
    return EXIT_SUCCESS;
}
