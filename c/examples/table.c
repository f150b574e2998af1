/* Two technicians read two captures side by side in one table, the first of a VV5404 and the second of a VV5300: a row of standard input is a
 * technician and nibbles of their capture in hex. Each is answered as by a reader of one's own, which is fed beside the table. */
#include "fluturenc.h"

#include <stdio.h>
#include <stdlib.h>
#include <string.h>

/* A technician's place in the table, and the reader of one's own. */
struct desk {
    uint8_t technician, profile, place, *own;
    uint8_t line[FLUTURENC_VV5404_BODY], own_line[FLUTURENC_VV5404_BODY];
};

static void show(const struct desk *d, uint64_t answer, uint64_t own)
{
    if (answer != own || memcmp(d->line, d->own_line, sizeof d->line) != 0)
        printf("%d: a reader of one's own differs\n", d->technician);
    else if (fluturenc_is_line(answer))
        printf("%d: line %d, kind %d\n", d->technician, fluturenc_line_number(answer), fluturenc_line_kind(answer));
    else if (fluturenc_is_gap(answer))
        printf("%d: gap\n", d->technician);
    else if (answer != 0)
        printf("%d: refused %d\n", d->technician, (int)answer);
}

int main(void)
{
    static struct desk desks[2];
    static const size_t others[] = {1, 2, 8};
    size_t table_length = fluturenc_table_length(), state_length = fluturenc_state_length(), length, at, taken, own_taken;
    uint8_t *table = malloc(table_length);
    char hex[2000], digit[2] = "";
    uint8_t nibbles[sizeof hex];
    uint64_t answer, own;
    unsigned technician;
    struct desk *d;

    if (table == NULL || fluturenc_table_new(table, table_length) != 0)
        return EXIT_FAILURE;
    for (d = desks; d < desks + 2; d++) {
        d->technician = (uint8_t)(1 + (d - desks));
        d->profile = d == desks ? FLUTURENC_VV5404 : FLUTURENC_VV5300;
        d->own = malloc(state_length);
        d->place = fluturenc_table_open(table, table_length, d->technician, d->profile);
        if (d->own == NULL || fluturenc_open(d->profile, d->own, state_length) != 0)
            return EXIT_FAILURE;
        printf("%d: place %d\n", d->technician, d->place);
    }
    /* The other's place, a free one and none at all are refused alike. */
    for (at = 0; at < 3; at++)
        printf("1: close of place %zu, refused %d\n", others[at], fluturenc_table_close(table, table_length, 1, others[at]));
    while (scanf("%u %1999s", &technician, hex) == 2 && (technician == 1 || technician == 2)) {
        d = &desks[technician - 1];
        for (length = 0; hex[length] != 0; length++) {
            digit[0] = hex[length];
            nibbles[length] = (uint8_t)strtoul(digit, NULL, 16);
        }
        /* Nibbles, a place of one's own and room for a body: no call is refused, so each takes one nibble at least. */
        for (at = 0; at < length; at += taken) {
            answer = fluturenc_table_feed(table, table_length, d->technician, d->place, nibbles + at, length - at, d->line, sizeof d->line, &taken);
            own = fluturenc_feed(d->own, state_length, nibbles + at, length - at, d->own_line, sizeof d->own_line, &own_taken);
            if (taken == 0 || taken != own_taken)
                return EXIT_FAILURE;
            show(d, answer, own);
        }
    }
    for (d = desks; d < desks + 2; d++) {
        show(d, fluturenc_table_finish(table, table_length, d->technician, d->place), fluturenc_finish(d->own, state_length));
        if (fluturenc_table_close(table, table_length, d->technician, d->place) != 0)
            return EXIT_FAILURE;
        free(d->own);
    }
    /* A closed place is free again, the lowest first. */
    printf("2: place %d\n", fluturenc_table_open(table, table_length, 2, FLUTURENC_VV5404));
    free(table);
    return EXIT_SUCCESS;
}
