/* How a mark is found. F F F F 0 0 stands in packed bytes in one of two ways, by the phase of its first nibble:
 *
 *     even   FF FF 00 cc        odd   xF FF F0 0c cx        (cc: the code byte; x: any nibble)
 *               ^^                       ^^
 * Both have a byte FF (^^, the group's middle) before which a nibble F stands, and after which comes 00 or F0. A place is a candidate if it holds FF
 * and the byte after it is 00 or F0. Every group has exactly one middle, and a middle belongs to one group at most, since the byte after it says the
 * phase. So looking at each candidate in turn finds each group, at either phase, in order. No byte is passed over by count: the bytes of numbers
 * and bodies are looked at too, and so is a code byte, on which the next group may begin.
 *
 * Long runs of F need no care: the middle is the last FF before 00 or F0, so the group is the last four F before 0 0.
 *
 * What an answer needs of a text. A line's text is code, two number bytes and 356 body bytes, 718 nibbles, so of an open mark only the place where
 * its text begins is kept: where the next mark begins says the length, and a text of the right length still stands in the buffer, which always has
 * the KEPT bytes before the next place to look at. A gap can be of any length, and nothing in it counts but whether all is F: that is asked of the
 * bytes in the buffer when the next mark comes, and before bytes are dropped. */
#include "reader.h"

#include <stdint.h>
#include <stdlib.h>
#include <string.h>

#if defined(__SSE2__) && defined(__GNUC__) && !defined(C_READER_PLAIN)
#define USES_SSE2
#include <emmintrin.h>
#endif

enum {
    BODY = 356,                    /* bytes of a body */
    TEXT = 2 * (1 + 2 + BODY),     /* nibbles of a line's text */
    FILLER = 0x07,
    KEPT = 384,                    /* a line's text from its first byte on, and the group after it, take 363 */
    PIECE = 1 << 16,               /* bytes read at a time */
    BEYOND = 32,                   /* bytes behind the last, so that a block may be loaded whole */
    ROW = 64,                      /* no row is longer */
    OUT = 1 << 16,                 /* bytes of rows handed over at a time */
    DIGITS = 24                    /* more digits than a mark's number has */
};

/* What a code byte says. Kinds of lines are 1 to 5, as in the paper. */
enum { BL = 1, BK, VL, SOF, EOF_LINE, END, RESERVED, DAMAGED, NO_MARK, CODES };

struct c_reader {
    c_reader_rows *rows;
    void *to;
    uint8_t code_of[256];     /* what each code byte says */
    uint8_t repaired[256];    /* whether it was repaired for that */
    uint8_t bad_number[256];  /* whether it is no number byte */
    /* The refusal that needs no look at the text, or 0: by what the code says, what the one before says, and whether the text has a line's length. */
    uint8_t outright[CODES][CODES][2];

    /* The buffer. Places in the capture are counted in nibbles, and bytes[0] is the one at `base`: bytes of no capture, all 00, stand before the
     * first. They hold no F, so that no group begins in them. (Unsigned numbers: base wraps below 0, and differences come out right.) */
    uint64_t base;
    size_t length;            /* bytes in the buffer */
    size_t next;              /* the next byte to look at as a middle: the bytes before it have been looked at */
    unsigned char bytes[KEPT + PIECE + BEYOND];

    /* The open mark, the last one whose code is complete. */
    uint8_t open;             /* what its code says, NO_MARK at first */
    uint8_t open_repaired;
    uint8_t before;           /* what the code of the mark before it says */
    uint8_t gap_bad;          /* of an end: whether a nibble of the gap, before gap_next, is not F */
    uint64_t text;            /* the place of its text's first nibble */
    uint64_t gap_next;        /* of an end: the place of the gap's first nibble that was not looked at */

    /* The rows, and the number of the next mark in decimal digits, from `first_digit` up to DIGITS. */
    size_t used;
    size_t first_digit;
    char number[2 * DIGITS];
    char out[OUT];
};

/* The code bytes (01's table): each clean byte, and the eight that differ from it in one bit (02, A8). Any two clean bytes differ in four bits, so
 * that no byte is near two of them. */
static void make_tables(struct c_reader *r)
{
    static const uint8_t clean[][2] = {{0x80, END}, {0x9D, BL},       {0xAB, BK},       {0xB6, VL},
                                       {0xC7, SOF}, {0xDA, EOF_LINE}, {0xEC, RESERVED}, {0xF1, RESERVED}};
    unsigned i, bit, byte, ones, code, before;

    memset(r->code_of, DAMAGED, sizeof r->code_of);
    for (i = 0; i < sizeof clean / sizeof clean[0]; i++) {
        r->code_of[clean[i][0]] = clean[i][1];
        for (bit = 0; bit < 8; bit++) {
            r->code_of[clean[i][0] ^ 1u << bit] = clean[i][1];
            r->repaired[clean[i][0] ^ 1u << bit] = 1;
        }
    }
    /* A number byte: its top bit is 0, and its ones are odd. */
    for (byte = 0; byte < 256; byte++) {
        for (ones = 0, bit = 0; bit < 8; bit++)
            ones += byte >> bit & 1;
        r->bad_number[byte] = byte >= 0x80 || ones % 2 == 0;
    }
    /* A table instead of tests: between dense marks of any code, tests that the processor guesses wrong took a fifth of the time. */
    for (code = BL; code < NO_MARK; code++)
        for (before = BL; before <= NO_MARK; before++) {
            r->outright[code][before][0] = code == DAMAGED ? 1 : code == RESERVED ? 2 : code == END ? before > EOF_LINE ? 8 : 0 : 4;
            r->outright[code][before][1] = code <= EOF_LINE ? 0 : r->outright[code][before][0];
        }
}

/* Hands over the rows so far. */
static void hand_over(struct c_reader *r)
{
    r->rows(r->to, r->out, r->used);
    r->used = 0;
}

/* Puts a part of a row behind what was put before. */
static void put(struct c_reader *r, const char *text, size_t length)
{
    memcpy(r->out + r->used, text, length);
    r->used += length;
}

/* Begins a row with the number of the mark, and counts it. A copy has always DIGITS bytes, since a copy of fixed length is quick: what was
 * copied beyond the number is overwritten by what follows. */
static void put_number(struct c_reader *r)
{
    size_t i = DIGITS - 1;

    if (r->used > OUT - ROW)
        hand_over(r);
    memcpy(r->out + r->used, r->number + r->first_digit, DIGITS);
    r->used += DIGITS - r->first_digit;
    while (r->number[i] == '9')
        r->number[i--] = '0';
    r->number[i]++;
    if (i < r->first_digit)
        r->first_digit = i;
}

static void put_refused(struct c_reader *r, unsigned why)
{
    char text[] = " REFUSED - 0\n";

    text[11] = (char)('0' + why);
    put_number(r);
    put(r, text, sizeof text - 1);
}

static void put_gap(struct c_reader *r)
{
    put_number(r);
    put(r, " GAP - ok\n", 10);
}

static void put_line(struct c_reader *r, unsigned kind, unsigned number, int repaired)
{
    static const char *const kinds[] = {"", " BL ", " BK ", " VL ", " SOF ", " EOF "};
    char digits[4];
    size_t i = sizeof digits;

    do {
        digits[--i] = (char)('0' + number % 10);
        number /= 10;
    } while (number != 0);
    put_number(r);
    put(r, kinds[kind], kind < SOF ? 4 : 5);
    put(r, digits + i, sizeof digits - i);
    if (repaired)
        put(r, " repaired\n", 10);
    else
        put(r, " clean\n", 7);
}

/* The byte whose high nibble stands at a place: at an odd one, two halves of bytes. */
static unsigned byte_at(const struct c_reader *r, uint64_t place)
{
    const unsigned char *b = r->bytes + (place - r->base) / 2;

    return place % 2 == 0 ? b[0] : (b[0] & 15u) << 4 | b[1] >> 4;
}

#ifdef USES_SSE2
/* Sixteen bytes from a nibble of b[0] on. */
static __m128i sixteen_at(const unsigned char *b, unsigned odd)
{
    const __m128i low = _mm_set1_epi8(15);
    __m128i here = _mm_loadu_si128((const __m128i *)b), after;

    if (!odd)
        return here;
    after = _mm_loadu_si128((const __m128i *)(b + 1));
    return _mm_or_si128(_mm_slli_epi16(_mm_and_si128(here, low), 4), _mm_and_si128(_mm_srli_epi16(after, 4), low));
}
#endif

/* Whether the body whose first nibble stands at a place may belong to a line of the kind: BK and VL have neither 00 nor FF, SOF has 07 at odd places,
 * BL and EOF at all. */
static int body_allowed(const struct c_reader *r, unsigned kind, uint64_t place)
{
#ifdef USES_SSE2
    /* Sixteen at a time. The last sixteen overlap those before them: 356 is no multiple of 16, but even, so that odd places stay odd. */
    const unsigned char *b = r->bytes + (place - r->base) / 2;
    const unsigned odd = place % 2;
    const __m128i filler = _mm_set1_epi8(FILLER), ones = _mm_set1_epi8(-1), zero = _mm_setzero_si128();
    const __m128i any = kind == SOF ? _mm_set1_epi16(0x00FF) : zero; /* places where any byte is allowed */
    __m128i bad = zero, good = ones;
    int i;

    if (kind == BK || kind == VL) {
        for (i = 0; i < BODY; i += 16) {
            __m128i x = sixteen_at(b + (i < BODY - 16 ? i : BODY - 16), odd);
            bad = _mm_or_si128(bad, _mm_or_si128(_mm_cmpeq_epi8(x, zero), _mm_cmpeq_epi8(x, ones)));
        }
        return _mm_movemask_epi8(bad) == 0;
    }
    for (i = 0; i < BODY; i += 16) {
        __m128i x = sixteen_at(b + (i < BODY - 16 ? i : BODY - 16), odd);
        good = _mm_and_si128(good, _mm_or_si128(_mm_cmpeq_epi8(x, filler), any));
    }
    return _mm_movemask_epi8(good) == 0xFFFF;
#else
    unsigned i, x;

    for (i = 0; i < BODY; i++) {
        x = byte_at(r, place + 2 * i);
        if (kind == BK || kind == VL ? x == 0x00 || x == 0xFF : x != FILLER && !(kind == SOF && i % 2 == 0))
            return 0;
    }
    return 1;
#endif
}

/* Looks at the gap up to a place, which may lie before its first nibble: whether all of it is F. Half bytes at its ends first, then whole ones. */
static void look_at_gap(struct c_reader *r, uint64_t to)
{
    uint64_t at = r->gap_next;

    if (r->open != END || r->gap_bad || (int64_t)(to - at) <= 0)
        return;
    r->gap_next = to;
    if (at % 2 == 1) {
        r->gap_bad = (r->bytes[(at - r->base) / 2] & 0x0F) != 0x0F;
        at++;
    }
    if (to % 2 == 1) {
        r->gap_bad |= (r->bytes[(to - r->base) / 2] & 0xF0) != 0xF0;
        to--;
    }
    {
        const unsigned char *b = r->bytes + (at - r->base) / 2, *end = r->bytes + (to - r->base) / 2;
#ifdef USES_SSE2
        for (; end - b >= 16; b += 16)
            if (_mm_movemask_epi8(_mm_cmpeq_epi8(_mm_loadu_si128((const __m128i *)b), _mm_set1_epi8(-1))) != 0xFFFF) {
                r->gap_bad = 1;
                return;
            }
#endif
        for (; b < end; b++)
            if (*b != 0xFF) {
                r->gap_bad = 1;
                return;
            }
    }
}

/* Answers the open mark where the next one begins at a place, with this code: 01's table, the lowest number that applies. */
static void answer(struct c_reader *r, uint64_t place, unsigned code)
{
    const unsigned why = r->outright[r->open][r->before][place - r->text == TEXT];
    unsigned first, second;

    if (r->open == NO_MARK)
        return;
    if (why != 0) {
        put_refused(r, why);
        return;
    }
    if (r->open == END) {
        look_at_gap(r, place);
        if (r->gap_bad)
            put_refused(r, 9);
        else
            put_gap(r);
        return;
    }
    first = byte_at(r, r->text + 2);
    second = byte_at(r, r->text + 4);
    if (r->bad_number[first] || r->bad_number[second])
        put_refused(r, 5);
    else if (!body_allowed(r, r->open, r->text + 6))
        put_refused(r, 6);
    else if (r->code_of[code] != END)
        put_refused(r, 7);
    else
        put_line(r, r->open, first / 2 * 64 + second / 2, r->open_repaired || r->repaired[code]);
}

/* A group that begins at a place, with its code: answers the mark before it, and opens its own. */
static void open_mark(struct c_reader *r, uint64_t place, unsigned code)
{
    answer(r, place, code);
    r->before = r->open;
    r->open = r->code_of[code];
    r->open_repaired = r->repaired[code];
    r->text = place + 6;
    r->gap_next = r->text + 2; /* No end code has a nibble F, so the next group does not begin before that. */
    r->gap_bad = 0;
}

/* Looks at a candidate. Its code is complete: at an even phase the byte after 00, at an odd one the last nibble of the byte after F0 and the nibble
 * after that. */
static inline void look_at(struct c_reader *r, size_t i)
{
    const unsigned char *b = r->bytes + i;
    const uint64_t place = r->base + 2 * (uint64_t)(i - 1);

    if (b[1] == 0x00) {
        if (b[-1] == 0xFF)
            open_mark(r, place, b[2]);
    } else if ((b[-1] & 0x0F) == 0x0F && b[2] < 0x10) {
        open_mark(r, place + 1, (b[2] & 15u) << 4 | b[3] >> 4);
    }
}

/* Looks at each byte before `end` as a middle. The three bytes after it are in the buffer. */
static void look_up_to(struct c_reader *r, size_t end)
{
    size_t i = r->next;
#ifdef USES_SSE2
    const __m128i ones = _mm_set1_epi8(-1), zero = _mm_setzero_si128(), high = _mm_set1_epi8((char)0xF0);

    for (; i < end; i += 16) {
        __m128i here = _mm_loadu_si128((const __m128i *)(r->bytes + i)), after = _mm_loadu_si128((const __m128i *)(r->bytes + i + 1));
        __m128i follows = _mm_or_si128(_mm_cmpeq_epi8(after, zero), _mm_cmpeq_epi8(after, high));
        unsigned found = (unsigned)_mm_movemask_epi8(_mm_and_si128(_mm_cmpeq_epi8(here, ones), follows));
        if (found == 0)
            continue;
        if (end - i < 16)
            found &= (1u << (end - i)) - 1;
        for (; found != 0; found &= found - 1)
            look_at(r, i + (size_t)__builtin_ctz(found));
    }
#else
    for (; i < end; i++)
        if (r->bytes[i] == 0xFF && (r->bytes[i + 1] == 0x00 || r->bytes[i + 1] == 0xF0))
            look_at(r, i);
#endif
    r->next = end;
}

struct c_reader *c_reader_open(c_reader_rows *rows, void *to)
{
    struct c_reader *r = calloc(1, sizeof *r);

    if (r == NULL)
        return NULL;
    make_tables(r);
    r->rows = rows;
    r->to = to;
    r->base = (uint64_t)0 - 2 * KEPT;
    r->length = KEPT;
    r->next = KEPT;
    r->open = NO_MARK;
    r->before = NO_MARK;
    memset(r->number, '0', sizeof r->number);
    r->number[DIGITS - 1] = '1';
    r->first_digit = DIGITS - 1;
    put(r, "mark answer number note\n", 24);
    return r;
}

unsigned char *c_reader_space(struct c_reader *r, size_t *room)
{
    if (r->length == KEPT + PIECE) {
        /* The buffer is full: all but the KEPT bytes before the next one to look at are dropped. A group that is found later begins in the byte
         * before that one at the earliest, so that whatever stands before belongs to the open mark's text. */
        const size_t dropped = r->next - KEPT;

        look_at_gap(r, r->base + 2 * (uint64_t)(r->next - 1));
        memmove(r->bytes, r->bytes + dropped, r->length - dropped);
        r->base += 2 * (uint64_t)dropped;
        r->length -= dropped;
        r->next = KEPT;
    }
    *room = KEPT + PIECE - r->length;
    return r->bytes + r->length;
}

void c_reader_take(struct c_reader *r, size_t count)
{
    r->length += count;
    if (r->length >= r->next + 4)
        look_up_to(r, r->length - 3);
}

void c_reader_finish(struct c_reader *r)
{
    const unsigned char *last = r->bytes + r->length - 3;

    /* Three bytes were not looked at, fewer where the capture is shorter. The code of an even group may be the very last byte; that of an odd one
     * would go beyond. Before the capture 00 stands, so that a short one needs no care. */
    if (last[0] == 0xFF && last[1] == 0x00)
        look_at(r, r->length - 3);
    /* At the end a line has no next mark (3), and a gap runs up to the end. */
    if (r->open >= BL && r->open <= EOF_LINE)
        put_refused(r, 3);
    else
        answer(r, r->base + 2 * (uint64_t)r->length, 0);
    hand_over(r);
    free(r);
}
