/* Lists the marks of a profile 0 capture, the bytes of an 8-wire bus on standard input, as the program `list` does: a row for each answer, with the
 * mark's number, and a line's kind, number and whether a code was repaired, or GAP, or REFUSED and the number why. */
#include "fluturenc.h"

#include <stdio.h>
#include <stdlib.h>

static void show(unsigned long mark, uint64_t answer)
{
    static const char *const kinds[] = {"", "BL", "BK", "VL", "SOF", "EOF"};

    if (fluturenc_is_line(answer))
        printf("%lu %s %u %s\n", mark, kinds[fluturenc_line_kind(answer)], (unsigned)fluturenc_line_number(answer),
               fluturenc_line_repaired(answer) ? "repaired" : "clean");
    else if (fluturenc_is_gap(answer))
        printf("%lu GAP - ok\n", mark);
    else
        printf("%lu REFUSED - %u\n", mark, (unsigned)answer);
}

int main(void)
{
    uint8_t bytes[4096], line[FLUTURENC_VV5404_BODY];
    size_t length = fluturenc_state_length(), got, at, taken;
    uint8_t *state = malloc(length);
    unsigned long marks = 0;
    uint64_t answer;

    if (state == NULL || fluturenc_open(FLUTURENC_VV5404, state, length) != 0)
        return EXIT_FAILURE;
    puts("mark answer number note");
    while ((got = fread(bytes, 1, sizeof bytes, stdin)) > 0) {
        /* A state that open filled and room for a body: no call is refused, so each takes one nibble at least. */
        for (at = 0; at < 2 * got; at += taken) {
            answer = fluturenc_feed_bytes(state, length, bytes, got, at, line, sizeof line, &taken);
            if (answer != 0)
                show(++marks, answer);
        }
    }
    answer = fluturenc_finish(state, length);
    if (answer != 0)
        show(++marks, answer);
    free(state);
    return EXIT_SUCCESS;
}
