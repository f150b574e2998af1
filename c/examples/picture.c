/* Writes the picture of the first complete profile 0 frame of a capture, as the program `picture` does: the bytes of a capture on standard input, a
 * PGM file on standard output. */
#include "fluturenc.h"

#include <stdio.h>
#include <stdlib.h>
#include <string.h>

static uint8_t rows[FLUTURENC_MOST_PIXELS], back[FLUTURENC_MOST_PIXELS], file[FLUTURENC_LONGEST_FILE];

/* Gathers visible lines from each start of frame on: how many bytes, once the frame is complete; 0 where none is. */
static size_t gather(FILE *capture)
{
    uint8_t line[FLUTURENC_VV5404_BODY], nibbles[2], ruling;
    size_t length = fluturenc_state_length(), used = 0, at, taken;
    uint8_t *state = malloc(length);
    uint32_t judge = 0;
    uint64_t answer;
    int byte;

    if (state == NULL || fluturenc_open(FLUTURENC_VV5404, state, length) != 0)
        return 0;
    while ((byte = fgetc(capture)) != EOF) {
        nibbles[0] = (uint8_t)(byte >> 4);
        nibbles[1] = (uint8_t)(byte & 15);
        for (at = 0; at < sizeof nibbles; at += taken) {
            answer = fluturenc_feed(state, length, nibbles + at, sizeof nibbles - at, line, sizeof line, &taken);
            if (fluturenc_is_line(answer)) {
                if (fluturenc_line_kind(answer) == FLUTURENC_SOF)
                    used = 0;
                if (fluturenc_line_kind(answer) == FLUTURENC_VL && used + sizeof line <= sizeof rows) {
                    memcpy(rows + used, line, sizeof line);
                    used += sizeof line;
                }
                ruling = fluturenc_judge(&judge, fluturenc_line_kind(answer), fluturenc_line_number(answer));
                if (ruling == FLUTURENC_COMPLETE) {
                    free(state);
                    return used;
                }
            } else if (1 <= answer && answer <= 7) {
                fluturenc_judge(&judge, FLUTURENC_BROKEN, 0);
            }
        }
    }
    free(state);
    return 0;
}

int main(void)
{
    uint8_t sent[FLUTURENC_VV5404_BODY], row[FLUTURENC_VV5404_BODY], refusal;
    size_t used = gather(stdin), length, again;

    refusal = fluturenc_picture_write(rows, used, file, sizeof file, &length);
    if (refusal != 0) {
        fprintf(stderr, "no picture: %u\n", (unsigned)refusal);
        return EXIT_FAILURE;
    }
    fwrite(file, 1, length, stdout);

    /* The file reads back as its rows; and a row sent odd pixels first, put in order, is the row. */
    if (fluturenc_picture_read(file, length, back, sizeof back, &again) != 0 || again != used || memcmp(back, rows, used) != 0)
        return EXIT_FAILURE;
    if (fluturenc_to_body(FLUTURENC_VL, rows, sizeof sent, sent, sizeof sent, &length) != 0
        || fluturenc_to_pixels(FLUTURENC_VL, sent, sizeof sent, row, sizeof row, &length) != 0 || memcmp(row, rows, sizeof row) != 0)
        return EXIT_FAILURE;
    return EXIT_SUCCESS;
}
