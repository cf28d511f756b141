/*
 * A stream with the form's line first, as `heard` takes those of forms 1 to 7:  streams FORM KIND BYTES [SEED]
 *
 * KIND is `dense` (strings back to back), `sparse` (one string in each 960 bytes of noise, as a clock at 9600 baud sends one a second),
 * `noise`, or `damaged` (strings, damaged strings, parts of strings, start bytes). A stream longer than 1 MB repeats its first piece of
 * about that size, so that it is made faster than any program reads it.
 */
#define _POSIX_C_SOURCE 200809L
#include <stdio.h>
#include <stdlib.h>
#include <string.h>
#include <unistd.h>

#include "random.h"

enum { PIECE = 1000000, PERIOD = 960 };

static uint8_t piece[PIECE + PERIOD];

static void noise(uint8_t *out, size_t length)
{
    for (size_t i = 0; i < length; i++)
        out[i] = (uint8_t)below(256);
}

/* The next bytes of the kind, at most PERIOD; their number. */
static size_t next_part(const char *kind, uint32_t form, uint8_t *out)
{
    const size_t n = plain_shapes[form].length;
    if (strcmp(kind, "damaged") == 0)
        return random_piece(form, out);
    if (strcmp(kind, "dense") == 0) {
        random_string(form, out);
        return n;
    }
    noise(out, PERIOD);
    if (strcmp(kind, "sparse") == 0)
        random_string(form, out + PERIOD - n);
    return PERIOD;
}

static void print(const uint8_t *bytes, size_t length)
{
    while (length > 0) {
        const ssize_t done = write(STDOUT_FILENO, bytes, length);
        if (done <= 0)
            exit(1);
        bytes += done;
        length -= (size_t)done;
    }
}

int main(int argc, char **argv)
{
    const uint32_t form = argc > 3 ? (uint32_t)atoi(argv[1]) : 0;
    if (!plain_is_serial(form)) {
        fprintf(stderr, "usage: streams FORM KIND BYTES [SEED]\n");
        return 2;
    }
    seed(argc > 4 ? strtoull(argv[4], NULL, 10) : 7);
    size_t length = 0;
    while (length < PIECE)
        length += next_part(argv[2], form, piece + length);
    char line[16];
    print((const uint8_t *)line, (size_t)snprintf(line, sizeof line, "%u\n", (unsigned)form));
    for (unsigned long long left = strtoull(argv[3], NULL, 10); left > 0;) {
        const size_t part = left < length ? (size_t)left : length;
        print(piece, part);
        left -= part;
    }
    return 0;
}
