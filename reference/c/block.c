/* The block, form 9: fourteen lines of key, `=` and value, `-` where the field is absent. */
#include "plain.h"
#include "spell.h"

static inline uint8_t *put_date(uint8_t *o, const lindenscoop_record *r)
{
    switch (r->date) {
    case LINDENSCOOP_FULL_DATE: return put_three(o, r->yy, r->month, r->day, '-');
    case LINDENSCOOP_DAY_OF_YEAR: return put_digits(PUT_TEXT(o, "day-"), r->day_of_year, 3);
    default: return put_byte(o, '-');
    }
}

static inline uint8_t *put_fraction(uint8_t *o, const lindenscoop_record *r)
{
    switch (r->fraction) {
    case LINDENSCOOP_THOUSANDTHS: return put_digits(o, r->fraction_units, 3);
    case LINDENSCOOP_TEN_MILLIONTHS: return put_digits(o, r->fraction_units, 7);
    case LINDENSCOOP_HUNDREDTHS: return put_digits(o, r->fraction_units, 2);
    default: return put_byte(o, '-');
    }
}

/* The value of a yes/no field and the LF behind it. */
static inline uint8_t *put_flag(uint8_t *o, uint32_t flag)
{
    switch (flag) {
    case LINDENSCOOP_YES: return PUT_TEXT(o, "yes\n");
    case LINDENSCOOP_NO: return PUT_TEXT(o, "no\n");
    default: return PUT_TEXT(o, "-\n");
    }
}

/* Ten-thousandths of a degree, as +047.3500. */
static inline uint8_t *put_degrees(uint8_t *o, uint32_t negative, uint32_t units)
{
    o = put_digits(put_sign(o, negative, units), units / 10000, 3);
    return put_digits(put_byte(o, '.'), units % 10000, 4);
}

static inline uint8_t *put_position(uint8_t *o, const lindenscoop_record *r)
{
    switch (r->position) {
    case LINDENSCOOP_DEGREES:
        o = put_byte(put_degrees(o, r->south, r->latitude_units), ' ');
        o = put_byte(put_degrees(o, r->west, r->longitude_units), ' ');
        return put_digits(o, r->altitude_metres, 4);
    case LINDENSCOOP_MINUTES:
        o = put_minutes(put_sign(o, r->south, r->latitude_units), r->latitude_units, 2);
        return put_minutes(put_sign(put_byte(o, ' '), r->west, r->longitude_units), r->longitude_units, 3);
    default: return put_byte(o, '-');
    }
}

size_t plain_block(const lindenscoop_record *r, uint8_t *out)
{
    uint8_t *o = put_date(PUT_TEXT(out, "date="), r);
    o = put_three(PUT_TEXT(o, "\ntime="), r->hour, r->minute, r->second, ':');
    o = put_fraction(PUT_TEXT(o, "\nfraction="), r);
    o = PUT_TEXT(o, "\nchannel=");
    o = put_byte(o, r->channel == LINDENSCOOP_ABSENT ? '-' : (uint8_t)('0' + r->channel_number));
    o = put_flag(PUT_TEXT(o, "\nsync="), r->sync);
    o = put_flag(PUT_TEXT(o, "fix="), r->fix);
    o = put_flag(PUT_TEXT(o, "utc="), r->utc);
    o = put_flag(PUT_TEXT(o, "summer="), r->summer);
    o = put_flag(PUT_TEXT(o, "change="), r->change);
    o = put_flag(PUT_TEXT(o, "leap="), r->leap);
    o = PUT_TEXT(o, "offset=");
    o = r->offset == LINDENSCOOP_ABSENT ? put_byte(o, '-') : put_offset(o, r->offset_negative, r->offset_minutes);
    o = put_position(PUT_TEXT(o, "\nposition="), r);
    o = put_flag(PUT_TEXT(o, "\ndsp="), r->dsp);
    o = put_flag(PUT_TEXT(o, "lsp="), r->lsp);
    return (size_t)(o - out);
}
