/* What the writers of the strings and of the block share. Each function stores at `o` and returns the place behind. */
#ifndef SPELL_H
#define SPELL_H

#include <stdint.h>
#include <string.h>

#define PUT_TEXT(o, text) put_bytes(o, text, sizeof(text) - 1)

static inline uint8_t *put_bytes(uint8_t *o, const char *text, size_t length)
{
    memcpy(o, text, length);
    return o + length;
}

static inline uint8_t *put_byte(uint8_t *o, uint8_t b)
{
    *o = b;
    return o + 1;
}

/* A number that fits into the width, with leading zeros; so what is left for the first digit needs no remainder. */
static inline uint8_t *put_digits(uint8_t *o, uint32_t n, int width)
{
    for (int i = width - 1; i > 0; i--, n /= 10)
        o[i] = (uint8_t)('0' + n % 10);
    o[0] = (uint8_t)('0' + n);
    return o + width;
}

/* Three numbers of two digits with a byte between them. */
static inline uint8_t *put_three(uint8_t *o, uint32_t a, uint32_t b, uint32_t c, uint8_t between)
{
    o = put_byte(put_digits(o, a, 2), between);
    o = put_byte(put_digits(o, b, 2), between);
    return put_digits(o, c, 2);
}

/* A byte as two digits 0-9, A-F. */
static inline uint8_t *put_hex(uint8_t *o, uint8_t b)
{
    static const char digits[] = "0123456789ABCDEF";
    o[0] = (uint8_t)digits[b / 16];
    o[1] = (uint8_t)digits[b % 16];
    return o + 2;
}

/* A zero has a plus. */
static inline uint8_t *put_sign(uint8_t *o, uint32_t negative, uint32_t magnitude)
{
    return put_byte(o, negative && magnitude ? '-' : '+');
}

/* Hours and minutes of an offset with its sign, as +01:00. */
static inline uint8_t *put_offset(uint8_t *o, uint32_t negative, uint32_t minutes)
{
    o = put_digits(put_sign(o, negative, minutes), minutes / 60, 2);
    return put_digits(put_byte(o, ':'), minutes % 60, 2);
}

/* Hundredths of a minute of arc: degrees of a width, minutes and hundredths, as 4721.00 or 00803.75. */
static inline uint8_t *put_minutes(uint8_t *o, uint32_t units, int width)
{
    o = put_digits(put_digits(o, units / 6000, width), units / 100 % 60, 2);
    return put_digits(put_byte(o, '.'), units % 100, 2);
}

#endif
