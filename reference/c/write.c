/* The writers of forms 1 to 7, 10 and 12, and tests in the order of document 01: 1, 7 (bad record), 8 (field missing), 9, 10 (no room). */
#include "calendar.h"
#include "plain.h"
#include "spell.h"

/* ---- Tests of a record ---- */

static inline bool is_good_date(const lindenscoop_record *r)
{
    switch (r->date) {
    case LINDENSCOOP_ABSENT: return true;
    case LINDENSCOOP_FULL_DATE: return calendar_is_date(r->yy, r->month, r->day);
    case LINDENSCOOP_DAY_OF_YEAR: return 1 <= r->day_of_year && r->day_of_year <= 366;
    default: return false;
    }
}

static inline bool is_good_fraction(const lindenscoop_record *r)
{
    switch (r->fraction) {
    case LINDENSCOOP_ABSENT: return true;
    case LINDENSCOOP_THOUSANDTHS: return r->fraction_units <= 999;
    case LINDENSCOOP_TEN_MILLIONTHS: return r->fraction_units <= 9999999;
    case LINDENSCOOP_HUNDREDTHS: return r->fraction_units <= 99;
    default: return false;
    }
}

/* In units of which a degree has so many. */
static inline bool is_place(const lindenscoop_record *r, uint32_t degree)
{
    return r->south <= 1 && r->latitude_units <= 90 * degree && r->west <= 1 && r->longitude_units <= 180 * degree;
}

static inline bool is_good_position(const lindenscoop_record *r)
{
    switch (r->position) {
    case LINDENSCOOP_ABSENT: return true;
    case LINDENSCOOP_DEGREES: return is_place(r, 10000) && r->altitude_metres <= 9999;
    case LINDENSCOOP_MINUTES: return is_place(r, 6000);
    default: return false;
    }
}

static inline bool are_good_flags(const lindenscoop_record *r)
{
    return r->sync <= LINDENSCOOP_YES && r->fix <= LINDENSCOOP_YES && r->utc <= LINDENSCOOP_YES && r->summer <= LINDENSCOOP_YES
           && r->change <= LINDENSCOOP_YES && r->leap <= LINDENSCOOP_YES && r->dsp <= LINDENSCOOP_YES && r->lsp <= LINDENSCOOP_YES
           && !(r->utc == LINDENSCOOP_YES && r->summer == LINDENSCOOP_YES);
}

static inline bool is_good(const lindenscoop_record *r)
{
    const bool channel = r->channel == LINDENSCOOP_ABSENT || (r->channel == LINDENSCOOP_PRESENT && r->channel_number <= 1);
    const bool offset =
        r->offset == LINDENSCOOP_ABSENT || (r->offset == LINDENSCOOP_PRESENT && r->offset_negative <= 1 && r->offset_minutes <= 840);
    return r->hour <= 23 && r->minute <= 59 && r->second <= 60 && is_good_date(r) && is_good_fraction(r) && channel && are_good_flags(r)
           && offset && is_good_position(r);
}

/* Whether each field that the form carries is there and of the form's kind. */
static inline bool has_carried_fields(uint32_t form, const lindenscoop_record *r)
{
    const bool full_date = r->date == LINDENSCOOP_FULL_DATE;
    switch (form) {
    case LINDENSCOOP_STANDARD: return full_date && r->sync && r->fix && r->utc && r->summer && r->change && r->leap;
    case LINDENSCOOP_CAPTURE: return full_date && r->fraction == LINDENSCOOP_TEN_MILLIONTHS && r->channel;
    case LINDENSCOOP_ERLANGEN:
        return full_date && r->offset && r->sync && r->fix && r->summer && r->change && r->leap && r->position == LINDENSCOOP_DEGREES;
    case LINDENSCOOP_SPA: return full_date && r->fraction == LINDENSCOOP_THOUSANDTHS;
    case LINDENSCOOP_SYSPLEX: return r->date != LINDENSCOOP_ABSENT && r->sync;
    case LINDENSCOOP_SAT: return full_date && r->sync && r->utc && r->summer && r->change;
    case LINDENSCOOP_RMC: return full_date && r->fraction == LINDENSCOOP_HUNDREDTHS && r->sync && r->position == LINDENSCOOP_MINUTES;
    default: return full_date;
    }
}

/* ---- The forms ---- */

static inline uint8_t letter_if(uint32_t flag, uint8_t yes, uint8_t no)
{
    return flag == LINDENSCOOP_YES ? yes : no;
}

static inline uint8_t latitude_letter(const lindenscoop_record *r)
{
    return r->south && r->latitude_units ? 'S' : 'N';
}

static inline uint8_t longitude_letter(const lindenscoop_record *r)
{
    return r->west && r->longitude_units ? 'W' : 'E';
}

static inline uint8_t weekday_digit(const lindenscoop_record *r)
{
    return (uint8_t)('0' + calendar_weekday(r->yy, r->month, r->day));
}

static void write_standard(const lindenscoop_record *r, uint8_t *o)
{
    o = put_three(PUT_TEXT(o, "\2D:"), r->day, r->month, r->yy, '.');
    o = put_byte(PUT_TEXT(o, ";T:"), weekday_digit(r));
    o = put_three(PUT_TEXT(o, ";U:"), r->hour, r->minute, r->second, '.');
    o[0] = ';';
    o[1] = letter_if(r->sync, ' ', '#');
    o[2] = letter_if(r->fix, ' ', '*');
    o[3] = letter_if(r->utc, 'U', letter_if(r->summer, 'S', ' '));
    o[4] = letter_if(r->change, '!', letter_if(r->leap, 'A', ' '));
    o[5] = ETX;
}

static void write_capture(const lindenscoop_record *r, uint8_t *o)
{
    o = put_byte(put_digits(PUT_TEXT(o, "CH"), r->channel_number, 1), ' ');
    o = put_byte(put_three(o, r->day, r->month, r->yy, '.'), ' ');
    o = put_byte(put_three(o, r->hour, r->minute, r->second, ':'), '.');
    PUT_TEXT(put_digits(o, r->fraction_units, 7), "\r\n");
}

/* A number whose leading zeros are spaces. */
static inline uint8_t *put_padded(uint8_t *o, uint32_t n, int width)
{
    uint8_t *behind = put_digits(o, n, width);
    for (; o < behind - 1 && *o == '0'; o++)
        *o = ' ';
    return behind;
}

static inline uint8_t *put_degrees(uint8_t *o, uint32_t degrees, uint8_t letter)
{
    o = put_byte(put_padded(o, degrees / 10000, 3), '.');
    return put_byte(put_byte(put_digits(o, degrees % 10000, 4), letter), ' ');
}

static void write_erlangen(const lindenscoop_record *r, uint8_t *o)
{
    o = put_three(put_byte(o, STX), r->day, r->month, r->yy, '.');
    o = put_byte(PUT_TEXT(o, "; "), weekday_digit(r));
    o = put_three(PUT_TEXT(o, "; "), r->hour, r->minute, r->second, ':');
    o = put_offset(PUT_TEXT(o, "; "), r->offset_negative, r->offset_minutes);
    o = PUT_TEXT(o, "; ");
    o[0] = letter_if(r->sync, ' ', '#');
    o[1] = letter_if(r->fix, ' ', '*');
    o[2] = letter_if(r->summer, 'S', ' ');
    o[3] = letter_if(r->change, '!', ' ');
    o[4] = letter_if(r->leap, 'A', ' ');
    o[5] = ' ';
    o[6] = r->second == 60 ? 'L' : ' ';
    o[7] = ';';
    o = put_degrees(o + 8, r->latitude_units, latitude_letter(r));
    o = put_degrees(o, r->longitude_units, longitude_letter(r));
    PUT_TEXT(put_padded(o, r->altitude_metres, 4), "m\3");
}

static void write_spa(const lindenscoop_record *r, uint8_t *out)
{
    uint8_t *o = put_byte(put_three(PUT_TEXT(out, ">900WD:"), r->yy, r->month, r->day, '-'), ' ');
    o = put_byte(put_digits(o, r->hour, 2), '.');
    o = put_byte(put_digits(o, r->minute, 2), ';');
    o = put_byte(put_digits(o, r->second, 2), '.');
    o = put_byte(put_digits(o, r->fraction_units, 3), ':');
    put_byte(put_hex(o, plain_spa_sum(out)), '\r');
}

/* Three numbers of two digits with nothing between them. */
static inline uint8_t *put_joined(uint8_t *o, uint32_t a, uint32_t b, uint32_t c)
{
    return put_digits(put_digits(put_digits(o, a, 2), b, 2), c, 2);
}

static void write_racal(const lindenscoop_record *r, uint8_t *o)
{
    o = put_joined(PUT_TEXT(o, "XGU"), r->yy, r->month, r->day);
    put_byte(put_joined(o, r->hour, r->minute, r->second), '\r');
}

static void write_sysplex(const lindenscoop_record *r, uint8_t *o)
{
    const bool full_date = r->date == LINDENSCOOP_FULL_DATE;
    o = put_digits(put_byte(o, SOH), full_date ? calendar_day_of_year(r->yy, r->month, r->day) : r->day_of_year, 3);
    o = put_three(put_byte(o, ':'), r->hour, r->minute, r->second, ':');
    PUT_TEXT(put_byte(o, letter_if(r->sync, ' ', '?')), "\r\n");
}

static void write_computime(const lindenscoop_record *r, uint8_t *o)
{
    o = put_three(PUT_TEXT(o, "T:"), r->yy, r->month, r->day, ':');
    o = put_byte(PUT_TEXT(o, ":0"), weekday_digit(r));
    o = put_three(put_byte(o, ':'), r->hour, r->minute, r->second, ':');
    PUT_TEXT(o, "\r\n");
}

static inline const char *zone_word(const lindenscoop_record *r)
{
    return r->utc == LINDENSCOOP_YES ? "UTC " : r->summer == LINDENSCOOP_YES ? "CEST" : "CET ";
}

static void write_sat(const lindenscoop_record *r, uint8_t *o)
{
    o = put_three(put_byte(o, STX), r->day, r->month, r->yy, '.');
    o = put_byte(put_byte(put_byte(o, '/'), weekday_digit(r)), '/');
    o = put_bytes(put_three(o, r->hour, r->minute, r->second, ':'), zone_word(r), 4);
    o[0] = letter_if(r->sync, ' ', '#');
    o[1] = letter_if(r->change, '!', ' ');
    PUT_TEXT(o + 2, "\r\n\3");
}

static void write_rmc(const lindenscoop_record *r, uint8_t *out)
{
    uint8_t *o = put_byte(put_joined(PUT_TEXT(out, "$GPRMC,"), r->hour, r->minute, r->second), '.');
    o = put_byte(put_digits(o, r->fraction_units, 2), ',');
    o = put_byte(put_byte(o, letter_if(r->sync, 'A', 'V')), ',');
    o = put_byte(put_minutes(o, r->latitude_units, 2), ',');
    o = put_byte(put_byte(o, latitude_letter(r)), ',');
    o = put_byte(put_minutes(o, r->longitude_units, 3), ',');
    o = PUT_TEXT(put_byte(o, longitude_letter(r)), ",0.0,0.0,");
    o = PUT_TEXT(put_joined(o, r->day, r->month, r->yy), ",0.0,E*");
    PUT_TEXT(put_hex(o, plain_rmc_sum(out)), "\r\n");
}

static void write_string(uint32_t form, const lindenscoop_record *r, uint8_t *out)
{
    switch (form) {
    case LINDENSCOOP_STANDARD: write_standard(r, out); break;
    case LINDENSCOOP_CAPTURE: write_capture(r, out); break;
    case LINDENSCOOP_ERLANGEN: write_erlangen(r, out); break;
    case LINDENSCOOP_SPA: write_spa(r, out); break;
    case LINDENSCOOP_RACAL: write_racal(r, out); break;
    case LINDENSCOOP_SYSPLEX: write_sysplex(r, out); break;
    case LINDENSCOOP_SAT: write_sat(r, out); break;
    case LINDENSCOOP_RMC: write_rmc(r, out); break;
    default: write_computime(r, out); break;
    }
}

/* A block's length is known when it is written, so one that may not fit is written elsewhere first. */
static size_t write_block(const lindenscoop_record *r, uint8_t *out, size_t room)
{
    uint8_t block[LINDENSCOOP_LONGEST_STRING];
    if (room >= sizeof block)
        return plain_block(r, out);
    const size_t length = plain_block(r, block);
    if (length > room)
        return 0;
    memcpy(out, block, length);
    return length;
}

uint32_t plain_write(uint32_t form, const lindenscoop_record *record, uint8_t *out, size_t room, size_t *written)
{
    *written = 0;
    if (!plain_is_serial(form) && form != LINDENSCOOP_BLOCK)
        return LINDENSCOOP_UNKNOWN_FORM;
    if (!is_good(record))
        return LINDENSCOOP_BAD_RECORD;
    if (form == LINDENSCOOP_BLOCK) {
        *written = write_block(record, out, room);
        return *written ? LINDENSCOOP_OK : LINDENSCOOP_SHORT_BUFFER;
    }
    if (!has_carried_fields(form, record))
        return LINDENSCOOP_MISSING_FIELD;
    if (form == LINDENSCOOP_STANDARD && record->change == LINDENSCOOP_YES && record->leap == LINDENSCOOP_YES)
        return LINDENSCOOP_NOT_EXPRESSIBLE;
    if (room < plain_shapes[form].length)
        return LINDENSCOOP_SHORT_BUFFER;
    write_string(form, record, out);
    *written = plain_shapes[form].length;
    return LINDENSCOOP_OK;
}
