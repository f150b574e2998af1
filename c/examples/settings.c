/* Saves exposure settings, and goes back to the first: settings on standard input, a line each of fine, coarse, gain code, divisor and frame rate, in
 * decimal. Each is shown as it is held, and at the end the two-wire messages that write the one gone back to. */
#include "fluturenc.h"

#include <stdio.h>
#include <stdlib.h>

static unsigned two(const uint8_t *bytes) { return bytes[0] * 256u + bytes[1]; }

static void show(const uint8_t *list, size_t length, uint16_t version)
{
    uint8_t s[FLUTURENC_SETTING];

    if (fluturenc_settings_find(list, length, version, s, sizeof s) == 0)
        printf("version %u: fine %u, coarse %u, gain code %u, divisor %u\n", two(s), two(s + 2), two(s + 4), (unsigned)s[6], (unsigned)s[7]);
}

int main(void)
{
    size_t length = fluturenc_settings_length(), written, at;
    uint8_t *list = calloc(length, 1), messages[FLUTURENC_SETTING_MESSAGES], refusal;
    unsigned fine, coarse, gain, divisor, rate;
    uint16_t version;

    if (list == NULL)
        return EXIT_FAILURE;
    while (scanf("%u %u %u %u %u", &fine, &coarse, &gain, &divisor, &rate) == 5) {
        if (fine > 65535 || coarse > 65535 || gain > 255 || divisor > 255 || rate > 255)
            return EXIT_FAILURE;
        refusal = fluturenc_settings_save(list, length, (uint16_t)fine, (uint16_t)coarse, (uint8_t)gain, (uint8_t)divisor, (uint8_t)rate, &version);
        if (refusal == 0)
            show(list, length, version);
        else
            printf("not saved: %u\n", (unsigned)refusal);
    }
    refusal = fluturenc_settings_back(list, length, 1, &version);
    if (refusal != 0) {
        fprintf(stderr, "can't go back: %u\n", (unsigned)refusal);
        return EXIT_FAILURE;
    }
    printf("back to version 1\n");
    show(list, length, version);
    if (fluturenc_settings_messages(list, length, version, messages, sizeof messages, &written) != 0)
        return EXIT_FAILURE;
    for (at = 0; at < written; at += 3)
        printf("%02x %02x %02x\n", messages[at], messages[at + 1], messages[at + 2]);
    free(list);
    return EXIT_SUCCESS;
}
