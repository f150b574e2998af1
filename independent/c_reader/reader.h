/* A reader of VV5404 captures in plain C, written from the papers (01, with 02's A8) for speed: something to measure the proved reader against.
 *
 * In: the packed bytes of a bus, the high nibble of each first, piece after piece; finish at the end. Out: the rows of the program `list`, a row for
 * each mark, handed over as text. Nothing is refused but the marks themselves. Memory is constant, whatever the length of the capture and of its
 * pieces. It is not proved: compare_rows compares its rows with those of `list`. */
#ifndef C_READER_H
#define C_READER_H

#include <stddef.h>

struct c_reader;

/* Takes rows, or a part of the rows: length bytes of text. */
typedef void c_reader_rows(void *to, const char *text, size_t length);

/* A fresh reader that hands its rows to a function; NULL where there is no memory. The row that names the columns is its first. */
struct c_reader *c_reader_open(c_reader_rows *rows, void *to);

/* Where the next bytes of the capture are put, and how many have room there, at least one. */
unsigned char *c_reader_space(struct c_reader *reader, size_t *room);

/* Reads so many bytes that were put there. */
void c_reader_take(struct c_reader *reader, size_t count);

/* Ends the capture: answers the last mark, if there is one, hands over the last rows, and frees the reader. */
void c_reader_finish(struct c_reader *reader);

#endif
