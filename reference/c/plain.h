/*
 * The checks of document 01 and of document 02, W-201, W-204 and W-205, in plain C, written from these papers: the baseline for the speed of the
 * library.
 *
 * It takes the record and gives the answers of lindenscoop.h, so that both can be compared number by number and neither has to
 * convert; of the library it calls nothing. Forms 1 to 7, 10 and 12 are read, searched and listened for, these and 9 are written.
 * The functions answer as those of the same name in lindenscoop.h; bench/compare.c runs the two side by side.
 */
#ifndef PLAIN_H
#define PLAIN_H

#include <stdbool.h>

#include "lindenscoop.h"

enum { PLAIN_LAST_FORM = 12, PLAIN_LONGEST = 66 };

/* Bytes of the strings that have no letter. */
enum { SOH = 1, STX = 2, ETX = 3 };

/* What a string of a form can be told by before it is read. Rows 0, 8, 9 and 11 stand for no serial form, and have length 0. */
typedef struct plain_shape {
    uint32_t length;
    uint8_t first;
    uint8_t last;
} plain_shape;

extern const plain_shape plain_shapes[PLAIN_LAST_FORM + 1];

static inline bool plain_is_serial(uint32_t form)
{
    return form <= PLAIN_LAST_FORM && plain_shapes[form].length > 0;
}

static inline uint8_t plain_exclusive_or(const uint8_t *s, int width)
{
    uint8_t sum = 0;
    for (int i = 0; i < width; i++)
        sum ^= s[i];
    return sum;
}

/* The sum of an SPA string: the exclusive-or of the 29 bytes before it. */
static inline uint8_t plain_spa_sum(const uint8_t *s)
{
    return plain_exclusive_or(s, 29);
}

/* The sum of an RMC string: the exclusive-or of the 59 bytes between `$` and `*`. */
static inline uint8_t plain_rmc_sum(const uint8_t *s)
{
    return plain_exclusive_or(s + 1, 59);
}

/* The last bytes fed stand in a ring, the last `kept` of them count, and the next one goes to place `at`. The high four bits of `form` are
   LINDENSCOOP_STATE_VERSION. */
typedef struct plain_listener {
    uint8_t ring[PLAIN_LONGEST];
    uint8_t at;
    uint8_t kept;
    uint8_t distance;
    uint8_t form;
} plain_listener;

uint32_t plain_read(uint32_t form, const uint8_t *input, size_t length, lindenscoop_record *record);

/* The reader alone, for a caller that has as many bytes as the form: a refused string leaves the record as it was. */
uint32_t plain_read_string(uint32_t form, const uint8_t *s, lindenscoop_record *record);

uint32_t plain_write(uint32_t form, const lindenscoop_record *record, uint8_t *out, size_t room, size_t *written);

/* The block of a good record, and its length. It takes a buffer of LINDENSCOOP_LONGEST_STRING bytes. */
size_t plain_block(const lindenscoop_record *record, uint8_t *out);

uint32_t plain_search(uint32_t form, const uint8_t *bytes, size_t length, size_t start, size_t *place, lindenscoop_record *record);

uint32_t plain_start(uint32_t form, plain_listener *listener);
uint32_t plain_feed(plain_listener *listener, uint8_t byte, lindenscoop_record *record);
uint32_t plain_feed_all(plain_listener *listener, const uint8_t *bytes, size_t length, size_t *used, lindenscoop_record *record);
uint32_t plain_mark(uint32_t form, const uint8_t *bytes, size_t length, uint8_t *marks, size_t marks_length);

#endif
