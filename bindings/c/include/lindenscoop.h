/*
 * Lindenscoop: time strings of satellite clocks, read, written, searched for and listened for.
 *
 * Link with -llindenscoop (`pkg-config --cflags --libs lindenscoop` says how, man 3 lindenscoop the rest) or with
 * liblindenscoop.a. C99 and later, C++11 and later. No function allocates, keeps a pointer, or has
 * state of its own, so any number of threads may call at the same time on buffers of their own.
 *
 * There are two layers. The exported functions, whose contracts are proved, take each buffer as a pointer and a length, in
 * elements: bytes, numbers or rows. lindenscoop_..._numbers takes a record as its 29 numbers, lindenscoop_..._raw no record. All
 * return the answer, and store what else there is behind pointers, but for lindenscoop_add_rack_second_numbers: it takes the numbers
 * by value, as the struct whose fields they are, and returns the answer and a number beside it in a struct. crates/lindenscoop/specs
 * defines what they answer, the comments here say it in words. Over them stands what a C program calls: lindenscoop_read and so on,
 * which take the structs below, lindenscoop_full_year and lindenscoop_days_since_1980, for years with their century,
 * lindenscoop_add_second, for the seconds that the racks heard, and lindenscoop_get_offset and so on, which say whether a field of a
 * record is there and hand out its value. A flag of no is stored as 1 and the number of an absent field as 0, so
 * `if (record.sync)` and a bare `record.offset_minutes` would mislead.
 *
 * Until form 12 came, those that take a record behind a pointer were named ..._raw too. A fraction and a position had fewer kinds
 * then, and code that tests number 21 for "not 0" alone would read minutes of arc as degrees. By the old names it does not link, and
 * what was linked before does not run. Code that calls them by the new ones looks at the kinds first: at number 8, counted from 0,
 * that of the fraction, before number 9, and at number 21, that of the position, before numbers 22 to 26. Number 4, the two digits
 * of a year, it hands to lindenscoop_full_year_raw.
 *
 * As long as a table was of one rack, lindenscoop_add_rack_second_numbers was named lindenscoop_add_second_numbers, and a row was a
 * run alone. Rows of that size cannot be handed over by the new name, and by the old one a program does not link.
 *
 * What the exported functions ask of their caller, and nothing else:
 *   - a pointer is not null, also where the length behind it is 0, and is aligned for its type;
 *   - behind it stand as many elements as the length says, and one where it has no length: a size_t *, year and days;
 *   - what stands behind a pointer that is not const overlaps no other argument.
 * Every value and every length, 0 included, is answered.
 *
 * What every one of them does:
 *   - fewer than 29 numbers for a record, or fewer than 70 bytes for a listener, are refused with
 *     LINDENSCOOP_SHORT_BUFFER before all else, and no buffer is changed. The numbers and bytes behind these are
 *     neither looked at nor changed. A table of runs with any other number of rows than 64, fewer or more, is refused with
 *     LINDENSCOOP_BAD_TABLE before all else but a rack that is not 0 or 1, which is refused with LINDENSCOOP_NO_RACK;
 *   - a call that is refused otherwise leaves every buffer as it was, but for these: a refused read or search stores
 *     the empty record, a start that is refused with 1 stores a state that answers every byte with 11, and 13 moves
 *     the listener on;
 *   - a size_t, *year and *days are stored by every call. *written, *place, *year and *days are 0 after every refusal. *used is
 *     how many bytes were fed, a refused one included, and 0 after LINDENSCOOP_SHORT_BUFFER.
 *
 * What the functions over the structs ask: the same, except that a pointer to bytes may be null where its length is 0.
 * Pointers to structs, to size_t, to year and to days are not null.
 */
#ifndef LINDENSCOOP_H
#define LINDENSCOOP_H

#include <stddef.h>
#include <stdint.h>
#include <string.h>
#ifndef __cplusplus
#include <stdbool.h>
#endif

/* The version of this header. Its first two numbers are those of the shared library, liblindenscoop.so.0.1. */
#define LINDENSCOOP_VERSION "0.1.0"

#ifdef __cplusplus
extern "C" {
#endif

/* The forms. Reading and writing take all of them; search, listener and marks take the serial ones, 1..7, 10 and 12.
   LINDENSCOOP_FRAME and LINDENSCOOP_C37118 are one frame under two rules for its sign: 1 for an offset above zero in the first (IEEE 1344:
   the offset that is added to the encoded time to reach UTC), 1 for one below zero in the second. A frame does not tell its rule: read by
   the other one it is not refused, and its offset has the other sign. Until form 11 came, form 8 had its rule: read such frames as 11. */
enum {
    LINDENSCOOP_STANDARD = 1,
    LINDENSCOOP_CAPTURE = 2,
    LINDENSCOOP_ERLANGEN = 3,
    LINDENSCOOP_SPA = 4,
    LINDENSCOOP_RACAL = 5,
    LINDENSCOOP_SYSPLEX = 6,
    LINDENSCOOP_COMPUTIME = 7,
    LINDENSCOOP_FRAME = 8,            /* the IEEE1344 frame */
    LINDENSCOOP_BLOCK = 9,
    LINDENSCOOP_SAT = 10,
    LINDENSCOOP_C37118 = 11,          /* the IEEE1344 frame with the sign of IEEE C37.118 */
    LINDENSCOOP_RMC = 12              /* the NMEA RMC string of 65 bytes */
};

/* The answers: none, the refusals (lindenscoop_message says what each means), and a record that a listener hands out. */
enum {
    LINDENSCOOP_OK = 0,               /* of a listener: nothing heard */
    LINDENSCOOP_UNKNOWN_FORM = 1,
    LINDENSCOOP_WRONG_LENGTH = 2,
    LINDENSCOOP_WRONG_BYTE = 3,
    LINDENSCOOP_OUT_OF_RANGE = 4,
    LINDENSCOOP_DISAGREEMENT = 5,
    LINDENSCOOP_WRONG_CHECKSUM = 6,
    LINDENSCOOP_BAD_RECORD = 7,
    LINDENSCOOP_MISSING_FIELD = 8,
    LINDENSCOOP_NOT_EXPRESSIBLE = 9,
    LINDENSCOOP_SHORT_BUFFER = 10,
    LINDENSCOOP_BAD_STATE = 11,
    LINDENSCOOP_NOT_FOUND = 12,
    LINDENSCOOP_OVERLAP = 13,
    LINDENSCOOP_NO_SECOND = 14,
    LINDENSCOOP_NO_ROW = 15,
    LINDENSCOOP_NO_RACK = 16,
    LINDENSCOOP_BAD_TABLE = 21,
    LINDENSCOOP_HEARD = 100           /* feed: a record is handed out */
};

/* Kinds of a field. One kind of a fraction or of a position is never turned into another. */
enum {
    LINDENSCOOP_ABSENT = 0,
    LINDENSCOOP_PRESENT = 1,          /* channel, offset */
    LINDENSCOOP_FULL_DATE = 1,        /* date */
    LINDENSCOOP_DAY_OF_YEAR = 2,      /* date */
    LINDENSCOOP_THOUSANDTHS = 1,      /* fraction */
    LINDENSCOOP_TEN_MILLIONTHS = 2,   /* fraction */
    LINDENSCOOP_HUNDREDTHS = 3,       /* fraction */
    LINDENSCOOP_DEGREES = 1,          /* position: ten-thousandths of a degree, and an altitude */
    LINDENSCOOP_MINUTES = 2,          /* position: hundredths of a minute of arc, without an altitude */
    LINDENSCOOP_NO = 1,               /* sync .. lsp */
    LINDENSCOOP_YES = 2               /* sync .. lsp */
};

/* Sizes: of a record in numbers, of a listener and of the longest string in bytes, of a table of runs in rows; how many racks share a
   table, by the numbers 0 and 1, and how many of its rows each may have in use. */
enum {
    LINDENSCOOP_RECORD_NUMBERS = 29,
    LINDENSCOOP_LISTENER_BYTES = 70,
    LINDENSCOOP_LONGEST_STRING = 174,
    LINDENSCOOP_ROWS = 64,
    LINDENSCOOP_RACKS = 2,
    LINDENSCOOP_RACK_ROWS = 32
};

/* The version of a listener's layout. It changes whenever the layout does. */
enum { LINDENSCOOP_STATE_VERSION = 1 };

/*
 * A record. The numbers of an absent field, those of a date of the other kind, and the altitude of a position in minutes, are 0
 * when the library stores them, and are not looked at when it is given them. A kind that is none of its field's, and in a field
 * that is there a sign that is not 0 or 1 or a magnitude above 2147483647, are refused with LINDENSCOOP_BAD_RECORD; a sign of 1
 * on a magnitude of 0 is dropped. The library stores 0 or 1 as a sign, and 0 on a magnitude of 0.
 *
 * The numbers named ..._units are in the unit of their field's kind, which stands before them. Until form 12 came a fraction had
 * two kinds and a position one, and these and altitude_metres were named fraction_value, latitude, longitude and altitude. Code
 * that uses the old names does not compile any more, so that no minute is read as a degree, and no altitude that was not sent as
 * 0. It asks by lindenscoop_get_fraction and lindenscoop_get_position, which are as they were and answer false for the kinds that
 * came with form 12, and by lindenscoop_get_hundredths and lindenscoop_get_position_minutes, which answer for these alone.
 *
 * yy was named year as long as all of 0..99 meant 2000 and later. Code that adds 2000 to it would tell 2091 for 1991, so by the old
 * name it does not compile any more; it calls lindenscoop_get_date, or lindenscoop_full_year where it has the two digits alone.
 */
typedef struct lindenscoop_record {
    uint32_t hour;                    /* 0..23 */
    uint32_t minute;                  /* 0..59 */
    uint32_t second;                  /* 0..60 */
    uint32_t date;                    /* ABSENT, FULL_DATE, DAY_OF_YEAR */
    uint32_t yy;                      /* 0..99: 80..99 mean 1980 to 1999, 0..79 mean 2000 to 2079 */
    uint32_t month;
    uint32_t day;
    uint32_t day_of_year;             /* 1..366 */
    uint32_t fraction;                /* ABSENT, THOUSANDTHS, TEN_MILLIONTHS, HUNDREDTHS */
    uint32_t fraction_units;          /* 0..999, 0..9999999, 0..99 */
    uint32_t channel;                 /* ABSENT, PRESENT */
    uint32_t channel_number;          /* 0, 1 */
    uint32_t sync;                    /* ABSENT, NO, YES: these six, dsp and lsp */
    uint32_t fix;                     /* position checked */
    uint32_t utc;
    uint32_t summer;
    uint32_t change;                  /* announced in the last hour */
    uint32_t leap;                    /* announced in the last hour */
    uint32_t offset;                  /* ABSENT, PRESENT: local time minus UTC */
    uint32_t offset_negative;         /* 0, 1 */
    uint32_t offset_minutes;          /* magnitude, at most 840 */
    uint32_t position;                /* ABSENT, DEGREES, MINUTES */
    uint32_t south;                   /* 0, 1 */
    uint32_t latitude_units;          /* magnitude: ten-thousandths of a degree, or hundredths of a minute of arc */
    uint32_t west;                    /* 0, 1 */
    uint32_t longitude_units;         /* magnitude, as the latitude's */
    uint32_t altitude_metres;         /* of DEGREES alone */
    uint32_t dsp;                     /* daylight saving pending */
    uint32_t lsp;                     /* leap second pending */
} lindenscoop_record;

/* A listener: a ring of 66 bytes, then a byte each for the place of the next one, how many count, the distance since the last
   record, and the form. The last has the form in its low four bits and LINDENSCOOP_STATE_VERSION in its high four. A
   listener may be stored and fed on later. Any bytes are safe to hand in: where they are no listener's state, or one of
   another version, each byte that is fed is refused with LINDENSCOOP_BAD_STATE, and they are left as they are. */
typedef struct lindenscoop_listener {
    uint8_t bytes[LINDENSCOOP_LISTENER_BYTES];
} lindenscoop_listener;

/* A second of the calendar, as a record with a full date tells it. */
typedef struct lindenscoop_second {
    uint32_t yy;                      /* as in a record: 80..99 mean 1980 to 1999, 0..79 mean 2000 to 2079 */
    uint32_t month;
    uint32_t day;
    uint32_t hour;                    /* 0..23 */
    uint32_t minute;                  /* 0..59 */
    uint32_t second;                  /* 0..60 */
} lindenscoop_second;

/* A run of seconds that were heard one after the other, each the next of the one before. */
typedef struct lindenscoop_run {
    lindenscoop_second first;
    lindenscoop_second last;
    uint32_t count;                   /* of the seconds, first and last included */
} lindenscoop_run;

/* A row of a table: a run, and the rack that heard it. */
typedef struct lindenscoop_row {
    uint32_t rack;                    /* 0, 1 */
    lindenscoop_run run;
} lindenscoop_row;

/* What lindenscoop_add_rack_second_numbers answers: LINDENSCOOP_OK or a refusal, and how many rows are in use now. */
typedef struct lindenscoop_added {
    uint32_t answer;
    uint32_t used;
} lindenscoop_added;

/* A table of the runs of both racks, in the order in which they were opened: the first `used` rows are in use, and what stands in the
   others is never looked at. lindenscoop_runs_clear makes it empty. From then on, what one rack is told and the list of its own rows
   are the same whatever the other rack's records are. It may be stored and added to later. Any numbers are safe to hand in: where
   `used`, a rack, the number of rows of a rack or its newest row shows that no calls made the table, each record, of whichever rack,
   is refused with LINDENSCOOP_BAD_TABLE, and it is left as it is. */
typedef struct lindenscoop_runs {
    lindenscoop_row rows[LINDENSCOOP_ROWS];
    uint32_t used;
} lindenscoop_runs;

/* The structs are copied to and from the numbers and bytes that the exported functions take, or are taken by them as they are, so
   each field must stand where its number does, and nothing between them. */
#define LINDENSCOOP_ASSERT(name, test) typedef char lindenscoop_##name[(test) ? 1 : -1]
#define LINDENSCOOP_IN(name, field, place) LINDENSCOOP_ASSERT(place_of_##field##_in_##name, offsetof(lindenscoop_##name, field) == place * sizeof(uint32_t))
#define LINDENSCOOP_AT(field, place) LINDENSCOOP_IN(record, field, place)
LINDENSCOOP_ASSERT(record_has_no_padding, sizeof(lindenscoop_record) == LINDENSCOOP_RECORD_NUMBERS * sizeof(uint32_t));
LINDENSCOOP_ASSERT(listener_has_no_padding, sizeof(lindenscoop_listener) == LINDENSCOOP_LISTENER_BYTES);
LINDENSCOOP_AT(hour, 0); LINDENSCOOP_AT(minute, 1); LINDENSCOOP_AT(second, 2); LINDENSCOOP_AT(date, 3);
LINDENSCOOP_AT(yy, 4); LINDENSCOOP_AT(month, 5); LINDENSCOOP_AT(day, 6); LINDENSCOOP_AT(day_of_year, 7);
LINDENSCOOP_AT(fraction, 8); LINDENSCOOP_AT(fraction_units, 9); LINDENSCOOP_AT(channel, 10);
LINDENSCOOP_AT(channel_number, 11); LINDENSCOOP_AT(sync, 12); LINDENSCOOP_AT(fix, 13); LINDENSCOOP_AT(utc, 14);
LINDENSCOOP_AT(summer, 15); LINDENSCOOP_AT(change, 16); LINDENSCOOP_AT(leap, 17); LINDENSCOOP_AT(offset, 18);
LINDENSCOOP_AT(offset_negative, 19); LINDENSCOOP_AT(offset_minutes, 20); LINDENSCOOP_AT(position, 21);
LINDENSCOOP_AT(south, 22); LINDENSCOOP_AT(latitude_units, 23); LINDENSCOOP_AT(west, 24); LINDENSCOOP_AT(longitude_units, 25);
LINDENSCOOP_AT(altitude_metres, 26); LINDENSCOOP_AT(dsp, 27); LINDENSCOOP_AT(lsp, 28);
LINDENSCOOP_ASSERT(second_has_no_padding, sizeof(lindenscoop_second) == 6 * sizeof(uint32_t));
LINDENSCOOP_ASSERT(run_has_no_padding, sizeof(lindenscoop_run) == 13 * sizeof(uint32_t));
LINDENSCOOP_ASSERT(row_has_no_padding, sizeof(lindenscoop_row) == 14 * sizeof(uint32_t));
LINDENSCOOP_ASSERT(added_has_no_padding, sizeof(lindenscoop_added) == 2 * sizeof(uint32_t));
LINDENSCOOP_IN(second, yy, 0); LINDENSCOOP_IN(second, month, 1); LINDENSCOOP_IN(second, day, 2);
LINDENSCOOP_IN(second, hour, 3); LINDENSCOOP_IN(second, minute, 4); LINDENSCOOP_IN(second, second, 5);
LINDENSCOOP_IN(run, first, 0); LINDENSCOOP_IN(run, last, 6); LINDENSCOOP_IN(run, count, 12);
LINDENSCOOP_IN(row, rack, 0); LINDENSCOOP_IN(row, run, 1);
LINDENSCOOP_IN(added, answer, 0); LINDENSCOOP_IN(added, used, 1);
#undef LINDENSCOOP_AT
#undef LINDENSCOOP_IN
#undef LINDENSCOOP_ASSERT

/* ---- The exported functions. The numbers are those of a record in the order of the struct. ---- */

/* A compiler warns of a null pointer, and its sanitizer of one that it cannot see. */
#ifdef __GNUC__
#define LINDENSCOOP_NOT_NULL __attribute__((nonnull))
#else
#define LINDENSCOOP_NOT_NULL
#endif

/* The record of a string, in the first 29 numbers; the empty record where the string is refused.
   10, before all else: numbers_length is below 29; nothing is stored. */
LINDENSCOOP_NOT_NULL uint32_t lindenscoop_read_numbers(uint32_t form, const uint8_t *input, size_t input_length, uint32_t *numbers, size_t numbers_length);

/* The string of a record, at the head of out; *written is its length. A refused write changes no byte and stores 0 in
   *written. 10, before all else: numbers_length is below 29. Then, in the order 1, 7, 8, 9, 10: the writer's refusals;
   7 also where the numbers are no record, 10 where out_length is below the string's length. */
LINDENSCOOP_NOT_NULL uint32_t lindenscoop_write_numbers(uint32_t form, const uint32_t *numbers, size_t numbers_length, uint8_t *out, size_t out_length, size_t *written);

/* The first valid string at or after start, which may be past the end: its place in *place, its record in the first 29
   numbers. Place 0 and the empty record where it is refused with 1 (the form is not serial) or 12, tested in this order.
   10, before all else: numbers_length is below 29; *place is 0, and no number is stored. */
LINDENSCOOP_NOT_NULL uint32_t lindenscoop_search_numbers(uint32_t form, const uint8_t *bytes, size_t bytes_length, size_t start, size_t *place, uint32_t *numbers, size_t numbers_length);

/* A new listener, in the first 70 bytes. 1: the form is not serial; the state stored then answers every byte with 11.
   10, before all else: state_length is below 70; nothing is stored. */
LINDENSCOOP_NOT_NULL uint32_t lindenscoop_start_raw(uint32_t form, uint8_t *state, size_t state_length);

/* Feeds one byte. 0: nothing. 100: a record is handed out and stored in the first 29 numbers, which nothing else
   changes. 13: as 0, in place of a record that overlaps the last one. 11: not a state, or one of another
   version, and left as it is.
   10, before all else: state_length is below 70 or numbers_length below 29; nothing is stored. */
LINDENSCOOP_NOT_NULL uint32_t lindenscoop_feed_numbers(uint8_t *state, size_t state_length, uint8_t byte, uint32_t *numbers, size_t numbers_length);

/* Feeds bytes one after the other, up to the first that is answered by anything but 0, and returns that answer; *used
   is how many were fed, that one included. 0: all were fed and nothing was heard. 10: as for one byte; *used is 0.
   A call that is lent bytes and is not answered 10 uses one at least. Called again behind the bytes used, and on
   buffer after buffer, it answers to every byte as lindenscoop_feed_numbers does, wherever the buffers end. */
LINDENSCOOP_NOT_NULL uint32_t lindenscoop_feed_all_numbers(uint8_t *state, size_t state_length, const uint8_t *bytes, size_t bytes_length, size_t *used, uint32_t *numbers, size_t numbers_length);

/* Runs a new listener over bytes: marks[i] is 1 where byte i completes a valid string, else 0, for each of them.
   1: the form is not serial. 10: marks_length is below bytes_length. Tested in this order; neither changes a mark. */
LINDENSCOOP_NOT_NULL uint32_t lindenscoop_mark_raw(uint32_t form, const uint8_t *bytes, size_t bytes_length, uint8_t *marks, size_t marks_length);

/* The year with its century that two digits mean, in *year: 80..99 mean 1980 to 1999, 0..79 mean 2000 to 2079.
   4: yy is above 99; *year is 0. */
LINDENSCOOP_NOT_NULL uint32_t lindenscoop_full_year_raw(uint32_t yy, uint32_t *year);

/* The days from 1 January 1980 to a date, in *days: 0 for that day itself, 36524 for 31 December 2079.
   4: there is no such date (a yy above 99, a month that is none, a day that the month does not have); *days is 0. */
LINDENSCOOP_NOT_NULL uint32_t lindenscoop_days_since_1980_raw(uint32_t yy, uint32_t month, uint32_t day, uint32_t *days);

/* Adds the second that a record of one rack tells to a table of runs, of which the first `used` rows are in use. It joins the newest
   run of this rack, if it is the next of that run's last one: it becomes the last one, and the count grows by one. 59 is followed by
   60 of its minute or by second 0 of the next minute, 60 by second 0 of the next minute, and nothing follows the last minute of 2079.
   Any other second, a repeat and one before included, becomes row `used`, as a run of its own with its rack, and the number in use
   grows by one. Tested in this order:
   16: rack is not 0 or 1. 21: rows_length is not 64, used is above 64, a row in use has another rack than 0 or 1, more than 32 rows in
   use are of one rack, or the newest row of either rack has a last second that the calendar does not have or a count above 4000000000.
   14: the record has no full date, or is bad, numbers that are no record included. 15: the second joins no run, and 32 rows in use are
   of this rack. A refusal changes no row, and the number in use is then the one that was handed in. Of the rows in use the racks are
   looked at, and of each rack's newest one the run; the rows behind them are not, and none but the one that is written is changed. */
LINDENSCOOP_NOT_NULL lindenscoop_added lindenscoop_add_rack_second_numbers(lindenscoop_row *rows, size_t rows_length, uint32_t used, uint32_t rack, lindenscoop_record record);
#undef LINDENSCOOP_NOT_NULL

#ifdef __cplusplus
}
#endif

/* ---- The same over the structs, and years with their century. ---- */

#ifdef __cplusplus
#define LINDENSCOOP_CAST(type, value) static_cast<type>(value)
#else
#define LINDENSCOOP_CAST(type, value) ((type)(value))
#endif

/* An answer that must be looked at: where it is false, the pointers were given nothing. */
#ifdef __GNUC__
#define LINDENSCOOP_MUST_CHECK __attribute__((warn_unused_result))
#else
#define LINDENSCOOP_MUST_CHECK
#endif

/* A pointer that is not null, for the exported functions. */
static inline const uint8_t *lindenscoop_bytes(const void *bytes)
{
    static const uint8_t none = 0;
    return bytes ? LINDENSCOOP_CAST(const uint8_t *, bytes) : &none;
}

static inline uint32_t lindenscoop_read(uint32_t form, const void *input, size_t length, lindenscoop_record *record)
{
    uint32_t numbers[LINDENSCOOP_RECORD_NUMBERS];
    uint32_t answer = lindenscoop_read_numbers(form, lindenscoop_bytes(input), length, numbers, LINDENSCOOP_RECORD_NUMBERS);
    memcpy(record, numbers, sizeof numbers);
    return answer;
}

static inline uint32_t lindenscoop_write(uint32_t form, const lindenscoop_record *record, void *out, size_t length, size_t *written)
{
    uint32_t numbers[LINDENSCOOP_RECORD_NUMBERS];
    uint8_t none = 0;
    memcpy(numbers, record, sizeof numbers);
    return lindenscoop_write_numbers(form, numbers, LINDENSCOOP_RECORD_NUMBERS, out ? LINDENSCOOP_CAST(uint8_t *, out) : &none, length, written);
}

static inline uint32_t lindenscoop_search(uint32_t form, const void *bytes, size_t length, size_t start, size_t *place, lindenscoop_record *record)
{
    uint32_t numbers[LINDENSCOOP_RECORD_NUMBERS];
    uint32_t answer = lindenscoop_search_numbers(form, lindenscoop_bytes(bytes), length, start, place, numbers, LINDENSCOOP_RECORD_NUMBERS);
    memcpy(record, numbers, sizeof numbers);
    return answer;
}

static inline uint32_t lindenscoop_start(uint32_t form, lindenscoop_listener *listener)
{
    return lindenscoop_start_raw(form, listener->bytes, LINDENSCOOP_LISTENER_BYTES);
}

/* The record is stored where the answer is LINDENSCOOP_HEARD, and left as it is otherwise. */
static inline uint32_t lindenscoop_feed(lindenscoop_listener *listener, uint8_t byte, lindenscoop_record *record)
{
    uint32_t numbers[LINDENSCOOP_RECORD_NUMBERS];
    uint32_t answer = lindenscoop_feed_numbers(listener->bytes, LINDENSCOOP_LISTENER_BYTES, byte, numbers, LINDENSCOOP_RECORD_NUMBERS);
    if (answer == LINDENSCOOP_HEARD)
        memcpy(record, numbers, sizeof numbers);
    return answer;
}

static inline uint32_t lindenscoop_feed_all(lindenscoop_listener *listener, const void *bytes, size_t length, size_t *used, lindenscoop_record *record)
{
    uint32_t numbers[LINDENSCOOP_RECORD_NUMBERS];
    uint32_t answer = lindenscoop_feed_all_numbers(listener->bytes, LINDENSCOOP_LISTENER_BYTES, lindenscoop_bytes(bytes), length, used, numbers, LINDENSCOOP_RECORD_NUMBERS);
    if (answer == LINDENSCOOP_HEARD)
        memcpy(record, numbers, sizeof numbers);
    return answer;
}

static inline uint32_t lindenscoop_mark(uint32_t form, const void *bytes, size_t length, uint8_t *marks, size_t marks_length)
{
    uint8_t none = 0;
    return lindenscoop_mark_raw(form, lindenscoop_bytes(bytes), length, marks ? marks : &none, marks_length);
}

/* The year with its century that two digits mean, 1980 to 2079. False for a yy above 99, and nothing is stored. */
static inline LINDENSCOOP_MUST_CHECK bool lindenscoop_full_year(uint32_t yy, uint32_t *year)
{
    uint32_t meant = 0;
    if (lindenscoop_full_year_raw(yy, &meant) != LINDENSCOOP_OK)
        return false;
    *year = meant;
    return true;
}

/* The two digits of a year of 1980 to 2079; for every other year a number above 99, which no date has. */
static inline uint32_t lindenscoop_two_digits(uint32_t year)
{
    uint32_t meant = 0;
    return lindenscoop_full_year(year % 100, &meant) && meant == year ? year % 100 : 0xffffffffu;
}

/* The days from 1 January 1980 to a date of 1980 to 2079. *days is 0 for that day itself and where there is no such date, so
   the answer, LINDENSCOOP_OK or LINDENSCOOP_OUT_OF_RANGE, must be looked at. lindenscoop_day_number, which is gone, counted from
   1 January 2000, which is day 7305 now. */
static inline uint32_t lindenscoop_days_since_1980(uint32_t year, uint32_t month, uint32_t day, uint32_t *days)
{
    return lindenscoop_days_since_1980_raw(lindenscoop_two_digits(year), month, day, days);
}

/* Makes a table of runs empty, for both racks: before its first use, and when all its rows were taken out. */
static inline void lindenscoop_runs_clear(lindenscoop_runs *runs)
{
    runs->used = 0;
}

/* Leaves a rack no row in use, when its rows were taken out. Those of the other rack stay in their order, so that none of its runs ends
   by this. A number in use above 64 is none that a table has: nothing is changed then. */
static inline void lindenscoop_runs_clear_rack(lindenscoop_runs *runs, uint32_t rack)
{
    uint32_t kept = 0;
    if (runs->used > LINDENSCOOP_ROWS)
        return;
    for (uint32_t row = 0; row < runs->used; row++)
        if (runs->rows[row].rack != rack)
            runs->rows[kept++] = runs->rows[row];
    runs->used = kept;
}

/* Adds the second that a record of one rack, 0 or 1, tells to a table. LINDENSCOOP_OK: the second joined the newest run of its rack where
   runs->used is as before, and opened a row where it is one more. LINDENSCOOP_NO_RACK: there is no such rack. LINDENSCOOP_NO_SECOND: the
   record tells none. LINDENSCOOP_NO_ROW: it needs a row and its rack has 32; take the rows of this rack out, call
   lindenscoop_runs_clear_rack and add the record again. Since it joins no run, the runs of a rack taken out one after the other are
   those of a table without an end. A refusal changes nothing. */
static inline uint32_t lindenscoop_add_second(lindenscoop_runs *runs, uint32_t rack, const lindenscoop_record *record)
{
    lindenscoop_added added = lindenscoop_add_rack_second_numbers(runs->rows, LINDENSCOOP_ROWS, runs->used, rack, *record);
    runs->used = added.used;
    return added.answer;
}

/* The date of a second: the year with its century, 1980 to 2079, month, day. False for a yy above 99, and nothing is stored. */
static inline LINDENSCOOP_MUST_CHECK bool lindenscoop_second_date(const lindenscoop_second *second, uint32_t *year, uint32_t *month, uint32_t *day)
{
    if (!lindenscoop_full_year(second->yy, year))
        return false;
    *month = second->month;
    *day = second->day;
    return true;
}

/* What an answer means. The texts of the refusals are those of README.md, "What a refusal means". */
static inline const char *lindenscoop_message(uint32_t answer)
{
    switch (answer) {
    case LINDENSCOOP_OK:
        return "no refusal";
    case LINDENSCOOP_UNKNOWN_FORM:
        return "there is no form of this number, or none that search and listener take";
    case LINDENSCOOP_WRONG_LENGTH:
        return "the input is not as long as the form";
    case LINDENSCOOP_WRONG_BYTE:
        return "a fixed byte, digit, letter, padding, mark, key or spelling is wrong";
    case LINDENSCOOP_OUT_OF_RANGE:
        return "a number is outside its range, or there is no such date";
    case LINDENSCOOP_DISAGREEMENT:
        return "two parts disagree: weekday and date, `L` and second 60, seconds of the day and time, a minus, `S`, `W` or a frame's sign 1 on a zero, utc and summer both yes";
    case LINDENSCOOP_WRONG_CHECKSUM:
        return "the SPA or RMC sum or the frame's parity is wrong";
    case LINDENSCOOP_BAD_RECORD:
        return "the record to be written is bad";
    case LINDENSCOOP_MISSING_FIELD:
        return "a field that the form carries is absent or of another kind";
    case LINDENSCOOP_NOT_EXPRESSIBLE:
        return "the form has no letter for the record's values";
    case LINDENSCOOP_SHORT_BUFFER:
        return "the buffer is shorter than the output";
    case LINDENSCOOP_BAD_STATE:
        return "a listener's state that no listener has: another version or form, too many bytes, too large a distance";
    case LINDENSCOOP_NOT_FOUND:
        return "no valid string lies wholly at or after the start of the search";
    case LINDENSCOOP_OVERLAP:
        return "a valid string ends too close behind the last one; a listener that was started never gives it";
    case LINDENSCOOP_NO_SECOND:
        return "the record has no full date, or is bad, so that it tells no second";
    case LINDENSCOOP_NO_ROW:
        return "a row is needed and this rack has 32 in use";
    case LINDENSCOOP_NO_RACK:
        return "there is no rack of this number: the racks are 0 and 1";
    case LINDENSCOOP_BAD_TABLE:
        return "a table that no calls made: not of 64 rows, a number in use over 64, a row in use of a rack that is not 0 or 1, over 32 rows of one rack, or a rack's newest row with an impossible last second or a count over 4,000,000,000";
    case LINDENSCOOP_HEARD:
        return "a record was handed out";
    default:
        return "no such answer";
    }
}

/* ---- The fields of a record. ----
 *
 * lindenscoop_get_NAME answers whether the field is there, and stores its value behind the pointers only then; where it
 * answers false, nothing is stored. A kind, a sign or a magnitude that no record of the library has counts as not there.
 * lindenscoop_set_NAME makes the field present; whether the value is one that a record may have is for lindenscoop_write to say.
 */

/* The year with its century, 1980 to 2079, month, day. False for a day of year alone. */
static inline LINDENSCOOP_MUST_CHECK bool lindenscoop_get_date(const lindenscoop_record *record, uint32_t *year, uint32_t *month, uint32_t *day)
{
    if (record->date != LINDENSCOOP_FULL_DATE || !lindenscoop_full_year(record->yy, year))
        return false;
    *month = record->month;
    *day = record->day;
    return true;
}

/* A year before 1980 or after 2079 makes a record that lindenscoop_write refuses. */
static inline void lindenscoop_set_date(lindenscoop_record *record, uint32_t year, uint32_t month, uint32_t day)
{
    record->date = LINDENSCOOP_FULL_DATE;
    record->yy = lindenscoop_two_digits(year);
    record->month = month;
    record->day = day;
}

/* 1..366, where it was sent in place of a date. False for a full date. */
static inline LINDENSCOOP_MUST_CHECK bool lindenscoop_get_day_of_year(const lindenscoop_record *record, uint32_t *day)
{
    if (record->date != LINDENSCOOP_DAY_OF_YEAR)
        return false;
    *day = record->day_of_year;
    return true;
}

static inline void lindenscoop_set_day_of_year(lindenscoop_record *record, uint32_t day)
{
    record->date = LINDENSCOOP_DAY_OF_YEAR;
    record->day_of_year = day;
}

/* The fraction of the second is value / parts; parts is 1000 or 10000000, as it was sent. False for hundredths. */
static inline LINDENSCOOP_MUST_CHECK bool lindenscoop_get_fraction(const lindenscoop_record *record, uint32_t *value, uint32_t *parts)
{
    if (record->fraction != LINDENSCOOP_THOUSANDTHS && record->fraction != LINDENSCOOP_TEN_MILLIONTHS)
        return false;
    *value = record->fraction_units;
    *parts = record->fraction == LINDENSCOOP_THOUSANDTHS ? 1000 : 10000000;
    return true;
}

/* The kind is LINDENSCOOP_THOUSANDTHS or LINDENSCOOP_TEN_MILLIONTHS. */
static inline void lindenscoop_set_fraction(lindenscoop_record *record, uint32_t kind, uint32_t value)
{
    record->fraction = kind;
    record->fraction_units = value;
}

/* Hundredths of the second, 0..99, as an RMC string has them. False for thousandths and ten-millionths. */
static inline LINDENSCOOP_MUST_CHECK bool lindenscoop_get_hundredths(const lindenscoop_record *record, uint32_t *hundredths)
{
    if (record->fraction != LINDENSCOOP_HUNDREDTHS)
        return false;
    *hundredths = record->fraction_units;
    return true;
}

static inline void lindenscoop_set_hundredths(lindenscoop_record *record, uint32_t hundredths)
{
    record->fraction = LINDENSCOOP_HUNDREDTHS;
    record->fraction_units = hundredths;
}

static inline LINDENSCOOP_MUST_CHECK bool lindenscoop_get_channel(const lindenscoop_record *record, uint32_t *number)
{
    if (record->channel != LINDENSCOOP_PRESENT)
        return false;
    *number = record->channel_number;
    return true;
}

static inline void lindenscoop_set_channel(lindenscoop_record *record, uint32_t number)
{
    record->channel = LINDENSCOOP_PRESENT;
    record->channel_number = number;
}

/* Flags. For a single test: lindenscoop_is_yes(record.sync), true where it was sent as yes, and lindenscoop_is_no(record.sync),
   true where it was sent as no; both are false where it was not sent. */
static inline bool lindenscoop_is_yes(uint32_t flag)
{
    return flag == LINDENSCOOP_YES;
}

static inline bool lindenscoop_is_no(uint32_t flag)
{
    return flag == LINDENSCOOP_NO;
}

/* What to store in a flag of a record to be written:  record.sync = lindenscoop_flag(true) */
static inline uint32_t lindenscoop_flag(bool yes)
{
    return yes ? LINDENSCOOP_YES : LINDENSCOOP_NO;
}

static inline LINDENSCOOP_MUST_CHECK bool lindenscoop_get_flag(uint32_t flag, bool *yes)
{
    if (!lindenscoop_is_yes(flag) && !lindenscoop_is_no(flag))
        return false;
    *yes = lindenscoop_is_yes(flag);
    return true;
}

static inline LINDENSCOOP_MUST_CHECK bool lindenscoop_get_sync(const lindenscoop_record *record, bool *yes)
{
    return lindenscoop_get_flag(record->sync, yes);
}

static inline LINDENSCOOP_MUST_CHECK bool lindenscoop_get_fix(const lindenscoop_record *record, bool *yes)
{
    return lindenscoop_get_flag(record->fix, yes);
}

static inline LINDENSCOOP_MUST_CHECK bool lindenscoop_get_utc(const lindenscoop_record *record, bool *yes)
{
    return lindenscoop_get_flag(record->utc, yes);
}

static inline LINDENSCOOP_MUST_CHECK bool lindenscoop_get_summer(const lindenscoop_record *record, bool *yes)
{
    return lindenscoop_get_flag(record->summer, yes);
}

static inline LINDENSCOOP_MUST_CHECK bool lindenscoop_get_change(const lindenscoop_record *record, bool *yes)
{
    return lindenscoop_get_flag(record->change, yes);
}

static inline LINDENSCOOP_MUST_CHECK bool lindenscoop_get_leap(const lindenscoop_record *record, bool *yes)
{
    return lindenscoop_get_flag(record->leap, yes);
}

static inline LINDENSCOOP_MUST_CHECK bool lindenscoop_get_dsp(const lindenscoop_record *record, bool *yes)
{
    return lindenscoop_get_flag(record->dsp, yes);
}

static inline LINDENSCOOP_MUST_CHECK bool lindenscoop_get_lsp(const lindenscoop_record *record, bool *yes)
{
    return lindenscoop_get_flag(record->lsp, yes);
}

/* The number of a sign and a magnitude; false where they are none. */
static inline LINDENSCOOP_MUST_CHECK bool lindenscoop_signed(uint32_t negative, uint32_t magnitude, int32_t *value)
{
    if (negative > 1 || magnitude > 0x7fffffffu)
        return false;
    *value = LINDENSCOOP_CAST(int32_t, magnitude);
    if (negative)
        *value = -*value;
    return true;
}

static inline uint32_t lindenscoop_magnitude(int32_t value)
{
    uint32_t magnitude = LINDENSCOOP_CAST(uint32_t, value);
    return value < 0 ? 0u - magnitude : magnitude;
}

/* Minutes of local time minus UTC. */
static inline LINDENSCOOP_MUST_CHECK bool lindenscoop_get_offset(const lindenscoop_record *record, int32_t *minutes)
{
    return record->offset == LINDENSCOOP_PRESENT && lindenscoop_signed(record->offset_negative, record->offset_minutes, minutes);
}

static inline void lindenscoop_set_offset(lindenscoop_record *record, int32_t minutes)
{
    record->offset = LINDENSCOOP_PRESENT;
    record->offset_negative = minutes < 0;
    record->offset_minutes = lindenscoop_magnitude(minutes);
}

/* Latitude and longitude of a position of one kind, in its units; false where the record has none of that kind. */
static inline LINDENSCOOP_MUST_CHECK bool lindenscoop_get_units(const lindenscoop_record *record, uint32_t kind, int32_t *latitude, int32_t *longitude)
{
    int32_t north = 0, east = 0;
    if (record->position != kind || !lindenscoop_signed(record->south, record->latitude_units, &north) || !lindenscoop_signed(record->west, record->longitude_units, &east))
        return false;
    *latitude = north;
    *longitude = east;
    return true;
}

static inline void lindenscoop_set_units(lindenscoop_record *record, uint32_t kind, int32_t latitude, int32_t longitude, uint32_t altitude)
{
    record->position = kind;
    record->south = latitude < 0;
    record->latitude_units = lindenscoop_magnitude(latitude);
    record->west = longitude < 0;
    record->longitude_units = lindenscoop_magnitude(longitude);
    record->altitude_metres = altitude;
}

/* Ten-thousandths of a degree, north and east positive, and metres. False for a position in minutes. */
static inline LINDENSCOOP_MUST_CHECK bool lindenscoop_get_position(const lindenscoop_record *record, int32_t *latitude, int32_t *longitude, uint32_t *altitude)
{
    if (!lindenscoop_get_units(record, LINDENSCOOP_DEGREES, latitude, longitude))
        return false;
    *altitude = record->altitude_metres;
    return true;
}

static inline void lindenscoop_set_position(lindenscoop_record *record, int32_t latitude, int32_t longitude, uint32_t altitude)
{
    lindenscoop_set_units(record, LINDENSCOOP_DEGREES, latitude, longitude, altitude);
}

/* Hundredths of a minute of arc, north and east positive: 284100 is 47 degrees 21.00 minutes. False for a position in degrees. */
static inline LINDENSCOOP_MUST_CHECK bool lindenscoop_get_position_minutes(const lindenscoop_record *record, int32_t *latitude, int32_t *longitude)
{
    return lindenscoop_get_units(record, LINDENSCOOP_MINUTES, latitude, longitude);
}

/* There is no altitude in this kind; its number is set to 0. */
static inline void lindenscoop_set_position_minutes(lindenscoop_record *record, int32_t latitude, int32_t longitude)
{
    lindenscoop_set_units(record, LINDENSCOOP_MINUTES, latitude, longitude, 0);
}

#undef LINDENSCOOP_MUST_CHECK
#undef LINDENSCOOP_CAST

#endif
