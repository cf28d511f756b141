/* Random records, strings and streams, always the same for a seed. */
#ifndef RANDOM_H
#define RANDOM_H

#include "../plain.h"

void seed(uint64_t value);
uint32_t below(uint32_t limit);

/* A good record that the form, a serial one or 9, can write: every value, letter and flag varied, and no field absent. */
void random_record(uint32_t form, lindenscoop_record *record);

/* A valid string of a serial form; its length is the form's. */
void random_string(uint32_t form, uint8_t *out);

/* Changes one to three bytes of a string, mostly into bytes that might stand there, or puts in values at the edge of a range or a word
   that may be no zone; a sum is often made right again. */
void damage(uint32_t form, uint8_t *string);

/* A piece of a damaged stream: a string, a damaged one, a part of one, start bytes, noise. Its length, PLAIN_LONGEST at the most. */
size_t random_piece(uint32_t form, uint8_t *out);

#endif
