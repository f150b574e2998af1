/* Fluturenc for C: reads, writes and judges the digital video bus of VV5404 and VV6404 sensors (profile 0) and of VV5300 sensors in 8-bit conversion
 * (profile 1), and what goes with it, a group of calls after another. The functions are proved in Rattle. Each group has a crate of its own, named
 * at its head: crates/CRATE/src/lib.rt has the contracts, and `bin/build CRATE` writes target/staticlib/libCRATE.a to link, for x86-64. An archive
 * needs no other. Nothing checks these declarations against that source.
 *
 * Buffers are lent: no call keeps a pointer or allocates. No pointer may be null, and no two buffers of a call may overlap. Nothing is
 * asked of what they hold: every call is answered, and room beyond what it writes stays as it was. A call that is refused changes no buffer,
 * but that feeding takes what stands before an input above 15. A call that fills a buffer answers 0 and puts the length at `written`, or answers
 * the refusal, puts 0 there and fills nothing. Refusals are listed in the order in which they are looked for. */
#ifndef FLUTURENC_H
#define FLUTURENC_H

#include <stddef.h>
#include <stdint.h>

#ifdef __cplusplus
extern "C" {
#endif

/* The version of this header and of the libraries, as the file VERSION has it. */
#define FLUTURENC_VERSION "0.9.0"

/* The profiles' numbers. */
#define FLUTURENC_VV5404 0
#define FLUTURENC_VV5300 1

/* The numbers of the line kinds: blank, black, visible, start of frame, end of frame. */
#define FLUTURENC_BL 1
#define FLUTURENC_BK 2
#define FLUTURENC_VL 3
#define FLUTURENC_SOF 4
#define FLUTURENC_EOF 5

/* The bytes of a body of each profile. A line buffer for the longer will do for both. */
#define FLUTURENC_VV5404_BODY 356
#define FLUTURENC_VV5300_BODY 168

/* ---- Reading, writing and judging: crate fluturenc; fluturenc_feed_bytes: crate fluturenc_bytes. */

/* The reader. Its state is bytes, which may be moved and copied: a copy is a reader of its own. */

/* The bytes of a reader's state. */
size_t fluturenc_state_length(void);

/* Puts a fresh reader into the state: 0; or the refusal: 11 no such profile, 12 a state shorter than fluturenc_state_length(). */
uint8_t fluturenc_open(uint8_t profile, uint8_t *state, size_t state_length);

/* Feeds nibbles, a byte each, up to the first answer or the end, and tells how many it took: the next call goes on from there. An answer
 * tells of the mark before; 0 where there is none yet. Where it is a line, the line buffer begins with the body; else that is as it was.
 * Refused, with nothing taken, also for no nibbles: 11 the state holds no reader that passes its own test, 12 the line buffer is shorter
 * than the profile's body. Stopped before an input above 15: 10. A call that takes nothing leaves the state as it was. */
uint64_t fluturenc_feed(uint8_t *state, size_t state_length, const uint8_t *nibbles, size_t nibbles_length, uint8_t *line,
                        size_t line_length, size_t *taken);

/* The same with packed bytes, as a capture file has them: feeds their nibbles, the high one of each first, from a place on that is counted in nibbles
 * from 0, and tells how many nibbles it took: the next call goes on at `from` plus that. A place past the end leaves no nibbles. Never 10. */
uint64_t fluturenc_feed_bytes(uint8_t *state, size_t state_length, const uint8_t *bytes, size_t bytes_length, size_t from, uint8_t *line,
                              size_t line_length, size_t *taken);

/* The last mark's answer, 0 where there was no mark; the reader is fresh again. Refused: 11. */
uint64_t fluturenc_finish(uint8_t *state, size_t state_length);

/* An answer of feed and finish is one number:
 *   0                                              nothing
 *   1 to 9                                         the mark is refused: 1 its code is damaged, 2 its code is reserved, 3 a line that the
 *                                                  end cut off, 4 a text of the wrong length, 5 a bad number byte, 6 a body byte that is
 *                                                  not allowed, 7 the next mark is no end of line, 8 an end of line with no line before,
 *                                                  9 a gap not as laid out
 *   10 to 12                                       the call is refused, as said above
 *   2^24 + 2^19 (repaired) + 2^16 * kind + number  a line
 *     + 2^32 * start + 2^48 * end                  and above these, what was repaired of the code that starts it, and of the one that
 *                                                  ends it: 0 nothing, else one more than the number of the bit, 0 to 7
 *   2^25 + 2^8 * first + second                    a good gap, with its two bytes
 *     + 2^32 * period                              and above these, its line's period in nibbles: from the line's first mark nibble to the
 *                                                  first nibble of the mark after the gap, held at 65535; 0 where the line was not handed
 *                                                  out, and where the end of the capture closed the gap
 * The low 32 bits alone are the answer without the bits of its repairs and without its period. */

static inline int fluturenc_is_refusal(uint64_t answer) { return 1 <= answer && answer <= 12; }

static inline int fluturenc_is_line(uint64_t answer) { return (answer >> 24 & 0xFF) == 1; }

static inline int fluturenc_is_gap(uint64_t answer) { return (answer >> 24 & 0xFF) == 2; }

/* Of a line: its kind, its number, and whether its own code or that of its end was repaired. */

static inline uint8_t fluturenc_line_kind(uint64_t answer) { return (uint8_t)(answer >> 16 & 7); }

static inline uint16_t fluturenc_line_number(uint64_t answer) { return (uint16_t)(answer & 0xFFFF); }

static inline int fluturenc_line_repaired(uint64_t answer) { return (int)(answer >> 19 & 1); }

/* The bit that was repaired in the code that starts the line, and in the code that ends it, 0 to 7; -1 for none. */

static inline int fluturenc_start_bit(uint64_t answer) { return (int)(answer >> 32 & 0xFFFF) - 1; }

static inline int fluturenc_end_bit(uint64_t answer) { return (int)(answer >> 48) - 1; }

/* Of a gap. */

static inline uint8_t fluturenc_gap_first(uint64_t answer) { return (uint8_t)(answer >> 8 & 0xFF); }

static inline uint8_t fluturenc_gap_second(uint64_t answer) { return (uint8_t)(answer & 0xFF); }

static inline uint16_t fluturenc_gap_period(uint64_t answer) { return (uint16_t)(answer >> 32); }

/* The writer: one line's nibbles, its end, its two gap bytes and so many null bytes, and how many nibbles that is: 0; or the refusal, in
 * this order, and then none is written: 11 no such profile, 13 no such kind, 14 a number above 4095, 15 a body of the wrong length, 16 a
 * byte of body or gap that is not allowed, 17 more than 255 nulls, 12 too little room. */
uint8_t fluturenc_write(uint8_t profile, uint8_t kind, uint16_t number, const uint8_t *body, size_t body_length, uint8_t first,
                        uint8_t second, uint32_t nulls, uint8_t *nibbles, size_t nibbles_length, size_t *written);

/* The judge of profile 0 frames is a number, 0 when fresh. It is handed each line by kind and number, and FLUTURENC_BROKEN for each answer
 * 1 to 7: FLUTURENC_WAITING for a frame, FLUTURENC_GOING within one, FLUTURENC_COMPLETE with the last line of one; 18 the line is not the
 * one due, 19 a broken line, and the frame is given up; or the refusal, in this order, and the judge stays as it was: 11 a number that no
 * calls leave, 13 a kind above 5, 14 a number above 4095. */
uint8_t fluturenc_judge(uint32_t *judge, uint8_t kind, uint16_t number);

#define FLUTURENC_BROKEN 0

#define FLUTURENC_WAITING 0
#define FLUTURENC_GOING 1
#define FLUTURENC_COMPLETE 2

/* ---- Pictures, and the order of pixels: crate fluturenc_picture. */

/* A picture is the visible lines of a complete profile 0 frame, top to bottom and end to end: 292 rows of 356 pixels with borders on, 288 with
 * borders off. Its file is a binary PGM: a header of 15 bytes, and the pixels. */
#define FLUTURENC_MOST_PIXELS (292 * FLUTURENC_VV5404_BODY)
#define FLUTURENC_LONGEST_FILE (15 + FLUTURENC_MOST_PIXELS)

/* The file of rows. Refused: 21 the rows are not 292 or 288, 22 a pixel is not 01 to FE, 12 too little room. */
uint8_t fluturenc_picture_write(const uint8_t *rows, size_t rows_length, uint8_t *file, size_t file_length, size_t *written);

/* The rows of a file. Refused: 20 not such a header, 21 not as many pixels as it says, 22 a pixel is not 01 to FE, 12 too little room. */
uint8_t fluturenc_picture_read(const uint8_t *file, size_t file_length, uint8_t *rows, size_t rows_length, size_t *written);

/* The pixels, in their order, of a body from a head that sends odd pixels first; and the body that such a head sends of pixels. Each undoes the
 * other. Refused: 23 the kind is not FLUTURENC_VL, 15 what is given is not 356 bytes, 12 too little room. */
uint8_t fluturenc_to_pixels(uint8_t kind, const uint8_t *body, size_t body_length, uint8_t *pixels, size_t pixels_length, size_t *written);

uint8_t fluturenc_to_body(uint8_t kind, const uint8_t *pixels, size_t pixels_length, uint8_t *body, size_t body_length, size_t *written);

/* ---- Two-wire messages: crate fluturenc_two_wire. */

/* A sensor as messages see it is bytes, which may be moved and copied: 128 registers, the current index, and 1 where the increment flag is set,
 * else 0. A message is the list of its acknowledged bytes between start and stop or repeated start. */
#define FLUTURENC_SENSOR_INDEX 128
#define FLUTURENC_SENSOR_INCREMENT 129

/* The first byte of a message that writes, and of one that reads. */
#define FLUTURENC_WRITE_ADDRESS 32
#define FLUTURENC_READ_ADDRESS 33

/* The bytes of a sensor. */
size_t fluturenc_sensor_length(void);

/* Puts a fresh sensor there, all 0: 0; or 12 fewer bytes than fluturenc_sensor_length(). */
uint8_t fluturenc_sensor_reset(uint8_t *sensor, size_t sensor_length);

/* Takes one message: 0; or the refusal: 11 the bytes hold no sensor, 24 shorter than two bytes, 25 address, 26 the second byte of a read is not the
 * index and the flag held, 27 read data differs, 28 data past register 127. */
uint8_t fluturenc_sensor_message(uint8_t *sensor, size_t sensor_length, const uint8_t *message, size_t message_length);

/* Writes a message of three bytes for each pair of the list: index, value, index, value, .. Refused: 24 the list ends within a pair, 28 an index
 * above 127, 12 too little room. */
uint8_t fluturenc_messages(const uint8_t *pairs, size_t pairs_length, uint8_t *messages, size_t messages_length, size_t *written);

/* ---- Two lists of lines compared: crate fluturenc_lists. */

/* A list is its profile 0 lines end to end, each the kind, the number in two bytes, high byte first, and the body of 356: 359 bytes. */
#define FLUTURENC_LINE (3 + FLUTURENC_VV5404_BODY)

/* The first byte of a difference. The number in two bytes follows, high byte first, and then: for a line that one list only has, its kind and
 * its body; for kinds that differ, both, the first list's first; for bodies that differ at a place, the place from 0 in two bytes, high byte
 * first, and both bytes there. */
#define FLUTURENC_ONLY_FIRST 1
#define FLUTURENC_ONLY_SECOND 2
#define FLUTURENC_KINDS_DIFFER 3
#define FLUTURENC_BYTES_DIFFER 4

/* The most bytes that the differences of one number take. */
#define FLUTURENC_MOST_DIFFERENCES (5 + 7 * FLUTURENC_VV5404_BODY)

/* All differences of two lists, in rising number, kinds before places, then by place; none where they are equal. Refused, each looked for over
 * both lists before the next: 35 numbers that don't rise strictly, 14 a number above 4095, 13 a kind not 1 to 5, 15 a list cut within a line,
 * 12 too little room. 35, 14 and 13 look at a line that is cut within its body too. */
uint8_t fluturenc_compare(const uint8_t *first, size_t first_length, const uint8_t *second, size_t second_length, uint8_t *differences,
                          size_t differences_length, size_t *written);

/* ---- Why a mark is answered as it is: crate fluturenc_why. */

#define FLUTURENC_GOOD_LINE 128
#define FLUTURENC_GOOD_GAP 129

/* In place of a value that there is not. */
#define FLUTURENC_NO_VALUE SIZE_MAX

/* The number of the answer to a run's first mark, and up to two values that say why; of a profile, the kind of the mark before, 0 for none or no
 * line kind, and nibbles that begin at a mark and go on through the next mark's code, or to the end of the capture. Both values are always set.
 *   FLUTURENC_GOOD_LINE, FLUTURENC_GOOD_GAP  no values
 *   1                                        the code byte; its parity sums that fail, P0 to P3, as bits 0 to 3
 *   2, 3, 8                                  no values
 *   4                                        the text's nibbles, found and wanted
 *   5, 6                                     the place of the first bad byte, from 0 in number or body; the byte
 *   7                                        the code that came
 *   9                                        the place of the gap's first bad nibble, from 0; the nibble. Or the nibbles of a profile 1 gap under
 *                                            two bytes, and no second value
 * Refused: 11 no such profile, 13 a kind above 5, 10 an input above 15 anywhere in the run, 36 it doesn't begin with a mark. */
uint8_t fluturenc_why(uint8_t profile, uint8_t before, const uint8_t *run, size_t run_length, size_t *first, size_t *second);

/* ---- Exact half-line means of a VV5300: crate fluturenc_means. */

/* The exact means of image places 16 to 79 and of 80 to 143 of a visible line's body, and beside each 64 times the mean that the sensor sent,
 * first or second, minus the sum. Refused, and then the four places stay as they were: 11 the profile is not FLUTURENC_VV5300, 23 the kind is not
 * FLUTURENC_VL, 15 a body of the wrong length, 16 a byte of the body or a mean that is not allowed. */
uint8_t fluturenc_half_means(uint8_t profile, uint8_t kind, const uint8_t *body, size_t body_length, uint8_t first, uint8_t second, double *mean1,
                             double *mean2, int32_t *beside1, int32_t *beside2);

/* ---- Saved exposure settings: crate fluturenc_settings. */

/* A list of eight saved settings is bytes, which may be moved, copied and kept in a file: eight places end to end, the used ones first, oldest first,
 * their versions in unbroken sequence. A place is version, fine and coarse exposure, each in two bytes, high byte first, gain code and clock divisor.
 * Version 0 marks an unused place: a fresh list is all 0. */
#define FLUTURENC_SETTING 8

/* The bytes of the messages that write a setting to a sensor. */
#define FLUTURENC_SETTING_MESSAGES 18

/* The bytes of a list, no more and no fewer. */
size_t fluturenc_settings_length(void);

/* Saves a setting: one more than the newest version goes to `version`, 1 in an empty list. Fine exposure above 360 at 30 frames a second, or 438 at
 * 25, and coarse exposure above 302 are clipped; where eight stand, the oldest is dropped. Refused, and then 0 goes to `version`: 37 not such a
 * list, 29 a gain code that is not 0, 1, 3 or 7, a divisor above 3, or a rate other than 25 or 30, 31 the newest version is 65535. */
uint8_t fluturenc_settings_save(uint8_t *list, size_t list_length, uint16_t fine, uint16_t coarse, uint8_t gain, uint8_t divisor, uint8_t rate,
                                uint16_t *version);

/* Puts the FLUTURENC_SETTING bytes of the setting under a version at the front of `setting`. Refused: 37, 30 the version is not held, as 0 never is,
 * 12 too little room. */
uint8_t fluturenc_settings_find(const uint8_t *list, size_t list_length, uint16_t version, uint8_t *setting, size_t setting_length);

/* Goes back: saves a copy of the setting under a version, as it stands, and puts its new version at `new_version`. Refused, and then 0 goes there:
 * 37, 30, 31. */
uint8_t fluturenc_settings_back(uint8_t *list, size_t list_length, uint16_t version, uint16_t *new_version);

/* Writes the messages of three bytes each that write the setting under a version to registers 32 to 37 of a VV5404 or VV6404. Refused: 37, 30, 12. */
uint8_t fluturenc_settings_messages(const uint8_t *list, size_t list_length, uint16_t version, uint8_t *messages, size_t messages_length,
                                    size_t *written);

/* ---- A table of readers for two technicians: crate fluturenc_table. */

/* Eight places, 0 to 7, each free or a technician's, with a reader: bytes, which may be moved and copied. A technician is 1 or 2, and calls only the
 * places that they opened. Refused, before all else that is said below: 11 fewer bytes than fluturenc_table_length(), 32 no such technician; and
 * of a call of a place 34: it is not there, or is free, or is the other's, which are told alike. */

/* The bytes of a table. */
size_t fluturenc_table_length(void);

/* Frees all places: 0; or 12 fewer bytes than fluturenc_table_length(). */
uint8_t fluturenc_table_new(uint8_t *table, size_t table_length);

/* Gives the lowest free place, with a fresh reader: its number. Refused: 11 no such profile, 33 no place is free. */
uint8_t fluturenc_table_open(uint8_t *table, size_t table_length, uint8_t technician, uint8_t profile);

/* fluturenc_feed of the place's reader. */
uint64_t fluturenc_table_feed(uint8_t *table, size_t table_length, uint8_t technician, size_t place, const uint8_t *nibbles, size_t nibbles_length,
                              uint8_t *line, size_t line_length, size_t *taken);

/* fluturenc_finish of the place's reader; the place stays its technician's. */
uint64_t fluturenc_table_finish(uint8_t *table, size_t table_length, uint8_t technician, size_t place);

/* Frees the place: 0. A mark that is still open is not answered. */
uint8_t fluturenc_table_close(uint8_t *table, size_t table_length, uint8_t technician, size_t place);

#ifdef __cplusplus
}
#endif

#endif
