/* Why marks are answered as they are: a row of standard input is a profile, the kind of the mark before, 0 for none, and nibbles in hex that begin
 * with a mark. */
#include "fluturenc.h"

#include <stdio.h>
#include <stdlib.h>
#include <string.h>

static void show(uint8_t number, size_t first, size_t second)
{
    int i;

    switch (number) {
    case FLUTURENC_GOOD_LINE:
        puts("good line");
        break;
    case FLUTURENC_GOOD_GAP:
        puts("good gap");
        break;
    case 1:
        printf("1: code %02zx, its parity fails in", first);
        for (i = 0; i < 4; i++)
            if (second >> i & 1)
                printf(" P%d", i);
        putchar('\n');
        break;
    case 2:
        puts("2: reserved code");
        break;
    case 3:
        puts("3: cut off by the end");
        break;
    case 4:
        printf("4: %zu nibbles of text, not %zu\n", first, second);
        break;
    case 5:
        printf("5: byte %zu of the number is %02zx\n", first, second);
        break;
    case 6:
        printf("6: byte %zu of the body is %02zx\n", first, second);
        break;
    case 7:
        printf("7: the next mark has the code %02zx\n", first);
        break;
    case 8:
        puts("8: no line before");
        break;
    case 9:
        if (second == FLUTURENC_NO_VALUE)
            printf("9: a gap of %zu nibbles\n", first);
        else
            printf("9: nibble %zu of the gap is %zx\n", first, second);
        break;
    default:
        printf("refused %u\n", (unsigned)number);
    }
}

int main(void)
{
    char hex[2000], digit[2] = "";
    uint8_t run[sizeof hex], number;
    unsigned profile, before;
    size_t length, first, second;

    while (scanf("%u %u %1999s", &profile, &before, hex) == 3) {
        for (length = 0; hex[length] != 0; length++) {
            digit[0] = hex[length];
            run[length] = (uint8_t)strtoul(digit, NULL, 16);
        }
        number = fluturenc_why((uint8_t)profile, (uint8_t)before, run, length, &first, &second);
        show(number, first, second);
    }
    return EXIT_SUCCESS;
}
