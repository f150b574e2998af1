/* Lists the capture on standard input, the bytes of a VV5404's bus, as the program `list` does. A read or a write that
 * fails ends it with status 1. */
#define _POSIX_C_SOURCE 200809L
#include "reader.h"

#include <errno.h>
#include <stdio.h>
#include <stdlib.h>
#include <unistd.h>

static void failed(const char *what)
{
    perror(what);
    exit(EXIT_FAILURE);
}

static void write_rows(void *to, const char *text, size_t length)
{
    ssize_t written;

    (void)to;
    for (; length > 0; text += written, length -= (size_t)written)
        while ((written = write(STDOUT_FILENO, text, length)) < 0)
            if (errno != EINTR)
                failed("standard output");
}

int main(void)
{
    struct c_reader *reader = c_reader_open(write_rows, NULL);
    unsigned char *space;
    size_t room;
    ssize_t got;

    if (reader == NULL)
        failed("c_reader");
    do {
        space = c_reader_space(reader, &room);
        while ((got = read(STDIN_FILENO, space, room)) < 0)
            if (errno != EINTR)
                failed("standard input");
        c_reader_take(reader, (size_t)got);
    } while (got > 0);
    c_reader_finish(reader);
    return EXIT_SUCCESS;
}
