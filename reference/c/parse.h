/* What the readers ask of the bytes at a place, and the numbers that they take from there. */
#ifndef PARSE_H
#define PARSE_H

#include <stdbool.h>
#include <stdint.h>
#include <string.h>

#define IS_TEXT(s, text) (memcmp(s, text, sizeof(text) - 1) == 0)

static inline bool is_digit(uint8_t b)
{
    return '0' <= b && b <= '9';
}

static inline bool are_digits(const uint8_t *s, int width)
{
    for (int i = 0; i < width; i++)
        if (!is_digit(s[i]))
            return false;
    return true;
}

/* Three numbers of two digits with a byte between them, as dd.mm.yy or hh:mm:ss. */
static inline bool are_three(const uint8_t *s, uint8_t between)
{
    return are_digits(s, 2) && s[2] == between && are_digits(s + 3, 2) && s[5] == between && are_digits(s + 6, 2);
}

/* Digits whose leading zeros are spaces; the last digit always stays. */
static inline bool is_padded(const uint8_t *s, int width)
{
    int i = 0;
    while (i < width - 1 && s[i] == ' ')
        i++;
    return (i == width - 1 || s[i] != '0') && are_digits(s + i, width - i);
}

static inline bool is_either(uint8_t b, uint8_t one, uint8_t other)
{
    return b == one || b == other;
}

/* The low four bits are the digit's value, and 0 for a space in place of a leading zero. */
static inline uint32_t number(const uint8_t *s, int width)
{
    uint32_t n = 0;
    for (int i = 0; i < width; i++)
        n = 10 * n + (s[i] & 15);
    return n;
}

/* 0-9 and A-F; 16 for any other byte. */
static inline uint32_t hex_value(uint8_t b)
{
    return is_digit(b) ? b - '0' : 'A' <= b && b <= 'F' ? b - 'A' + 10 : 16;
}

#endif
