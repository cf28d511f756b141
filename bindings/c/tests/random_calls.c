/*
 * Random calls of every exported function, repeatable by a seed:  random_calls [SEED [CALLS]]
 *
 * The library is not instrumented by the sanitizers, so each buffer lent to it ends at a page that cannot be touched,
 * or starts behind one, and what is left of its own pages is filled and compared after the call.
 */
#define _DEFAULT_SOURCE
#include <stdio.h>
#include <stdlib.h>
#include <string.h>
#include <sys/mman.h>
#include <unistd.h>

#include "lindenscoop.h"

#define CHECK(test) ((test) ? (void)0 : fail(__LINE__, #test))

static unsigned long long seed = 1, calls, drawn;
static unsigned answers[128];
/* how many records were handed out for each form */
static unsigned heard[16];
/* how many seconds joined a run, and how many opened a row */
static unsigned joined, opened;

static void fail(int line, const char *test)
{
    fprintf(stderr, "random_calls: line %d, seed %llu, call %llu: not %s\n", line, seed, calls, test);
    exit(1);
}

static uint32_t draw(uint32_t below)
{
    drawn += 0x9e3779b97f4a7c15ull;
    unsigned long long x = drawn;
    x = (x ^ (x >> 30)) * 0xbf58476d1ce4e5b9ull;
    x = (x ^ (x >> 27)) * 0x94d049bb133111ebull;
    return (uint32_t)((x ^ (x >> 31)) >> 32) % below;
}

/* ---- Buffers between two pages that cannot be touched ---- */

enum { PLACES = 4, ROOM = 4096, FILLING = 0xa5 };

/* The sizes of a record and of a listener's state, and where the numbers behind the ring stand in it */
enum { NUMBERS = LINDENSCOOP_RECORD_NUMBERS, STATE = LINDENSCOOP_LISTENER_BYTES, AT = 66, KEPT, DISTANCE, FORM };

static unsigned char *rooms[PLACES];
static unsigned char *lent[PLACES];
static size_t sizes[PLACES];

static void make_rooms(void)
{
    size_t page = (size_t)sysconf(_SC_PAGESIZE);
    for (int i = 0; i < PLACES; i++) {
        unsigned char *base = mmap(NULL, ROOM + 2 * page, PROT_NONE, MAP_PRIVATE | MAP_ANONYMOUS, -1, 0);
        if (base == MAP_FAILED || mprotect(base + page, ROOM, PROT_READ | PROT_WRITE)) {
            perror("mmap");
            exit(2);
        }
        rooms[i] = base + page;
    }
}

/* A buffer of so many bytes, with these in it (or the filling) */
static void *lend(int place, const void *bytes, size_t size)
{
    memset(rooms[place], FILLING, ROOM);
    lent[place] = draw(2) ? rooms[place] : rooms[place] + ROOM - size;
    sizes[place] = size;
    if (bytes)
        memcpy(lent[place], bytes, size);
    return lent[place];
}

static int filled(const unsigned char *from, const unsigned char *to)
{
    while (from < to)
        if (*from++ != FILLING)
            return 0;
    return 1;
}

static void check_rooms(void)
{
    for (int i = 0; i < PLACES; i++)
        CHECK(!lent[i] || (filled(rooms[i], lent[i]) && filled(lent[i] + sizes[i], rooms[i] + ROOM)));
}

/* ---- Records and strings ---- */

static uint32_t sometimes(uint32_t usual, uint32_t other)
{
    return draw(40) ? usual : other;
}

/* A fraction of any kind, mostly within its range */
static void random_fraction(lindenscoop_record *r)
{
    static const uint32_t parts[] = {1, 1000, 10000000, 100};
    r->fraction = sometimes(1 + draw(3), draw(6));
    r->fraction_units = sometimes(draw(parts[r->fraction & 3]), draw(10000001));
}

/* A position of either kind, at times beyond the poles and the date line */
static void random_position(lindenscoop_record *r)
{
    int32_t over = (int32_t)sometimes(0, draw(3));
    if (draw(2))
        lindenscoop_set_position(r, (int32_t)draw(1800001) - 900000 - over, (int32_t)draw(3600001) - 1800000 + over, sometimes(draw(10000), 10000));
    else
        lindenscoop_set_position_minutes(r, (int32_t)draw(1080001) - 540000 - over, (int32_t)draw(2160001) - 1080000 + over);
}

static void random_record(lindenscoop_record *r)
{
    uint32_t flags[6], numbers[NUMBERS];
    memset(r, 0, sizeof *r);
    r->hour = sometimes(draw(24), draw(30));
    r->minute = draw(60);
    r->second = sometimes(draw(61), 61);
    r->date = sometimes(1 + draw(2), draw(5));
    r->yy = draw(100);
    r->month = sometimes(1 + draw(12), draw(14));
    r->day = 1 + draw(28 + !draw(20) * 4);
    r->day_of_year = 1 + draw(366);
    random_fraction(r);
    r->channel = sometimes(1, draw(4));
    r->channel_number = sometimes(draw(2), 2);
    for (int i = 0; i < 6; i++)
        flags[i] = sometimes(1 + draw(2), draw(5));
    r->sync = flags[0], r->fix = flags[1], r->utc = flags[2];
    r->summer = flags[3], r->change = flags[4], r->leap = flags[5];
    if (draw(8))
        r->utc = 1;
    r->dsp = sometimes(1 + draw(2), draw(4));
    r->lsp = sometimes(1 + draw(2), draw(4));
    lindenscoop_set_offset(r, (int32_t)draw(57) * 30 - 840);
    random_position(r);
    memcpy(numbers, r, sizeof numbers);
    if (!draw(30))
        numbers[draw(NUMBERS)] = draw(2) ? draw(3) : 0xffffffffu - draw(2) * 0x7fffffffu;
    memcpy(r, numbers, sizeof numbers);
}

static uint32_t random_form(void)
{
    return sometimes(1 + draw(12), draw(2) ? draw(17) : 0xffffffffu);
}

/* Those that search, listener and marks take */
static const uint32_t serial_forms[] = {1, 2, 3, 4, 5, 6, 7, 10, 12};

static uint32_t serial_form(void)
{
    return serial_forms[draw(sizeof serial_forms / sizeof *serial_forms)];
}

static int is_serial(uint32_t form)
{
    for (size_t i = 0; i < sizeof serial_forms / sizeof *serial_forms; i++)
        if (serial_forms[i] == form)
            return 1;
    return 0;
}

/* Bytes with strings of the form among them */
static size_t random_bytes(uint32_t form, unsigned char *bytes, size_t most)
{
    size_t length = 0;
    while (length < most && draw(6)) {
        lindenscoop_record r;
        size_t written = 0;
        random_record(&r);
        if (draw(3) && lindenscoop_write(form, &r, bytes + length, most - length, &written) == 0)
            length += written;
        else
            bytes[length++] = (unsigned char)(draw(2) ? draw(256) : 32 + draw(30));
    }
    if (length && !draw(3))
        bytes[draw((uint32_t)length)] ^= (unsigned char)(1u << draw(8));
    return length;
}

/* One string of the form, at times damaged or a byte short; none where the form cannot say the records drawn */
static size_t random_string(uint32_t form, unsigned char *bytes, size_t most)
{
    size_t length = 0;
    for (int i = 0; i < 20 && length == 0; i++) {
        lindenscoop_record r;
        random_record(&r);
        lindenscoop_write(form, &r, bytes, most, &length);
    }
    if (length && !draw(3))
        bytes[draw((uint32_t)length)] ^= (unsigned char)(1u << draw(4));
    return length && !draw(20) ? length - 1 : length;
}

/* ---- Calls ---- */

static uint32_t seen(uint32_t answer)
{
    CHECK(answer < 128);
    answers[answer]++;
    check_rooms();
    return answer;
}

/* Every so often one number or byte too few, or none at all */
static size_t cut(size_t whole)
{
    return draw(12) ? whole + draw(3) : draw(2) ? whole - 1 : 0;
}

static int is_filled(const void *buffer, size_t size)
{
    return filled((const unsigned char *)buffer, (const unsigned char *)buffer + size);
}

static void call_read(void)
{
    unsigned char bytes[400];
    uint32_t form = random_form();
    size_t length = draw(4) ? random_string(form, bytes, 174) : random_bytes(form, bytes, 400);
    size_t numbers_length = cut(NUMBERS);
    uint8_t *input = lend(0, bytes, length);
    uint32_t *numbers = lend(1, NULL, 4 * numbers_length);
    uint32_t answer = seen(lindenscoop_read_numbers(form, input, length, numbers, numbers_length));
    CHECK(memcmp(input, bytes, length) == 0);
    CHECK((answer == 10) == (numbers_length < NUMBERS));
    if (answer == 10)
        CHECK(is_filled(numbers, 4 * numbers_length));
    else if (answer != 0)
        for (int i = 0; i < NUMBERS; i++)
            CHECK(numbers[i] == 0);
    CHECK(answer == 10 || is_filled(numbers + NUMBERS, 4 * (numbers_length - NUMBERS)));
}

/* What was written comes back with its time, and its fraction and position are absent or the same ones, of the same kinds */
static void check_back(uint32_t form, const lindenscoop_record *r, const uint8_t *out, size_t written)
{
    lindenscoop_record back;
    CHECK(lindenscoop_read(form, out, written, &back) == 0 && back.hour == r->hour && back.minute == r->minute && back.second == r->second);
    CHECK(back.fraction == 0 ? form != 9 || r->fraction == 0 : back.fraction == r->fraction && back.fraction_units == r->fraction_units);
    CHECK(back.position == 0 ? form != 9 || r->position == 0 : back.position == r->position);
    CHECK(back.position == 0 || (back.latitude_units == r->latitude_units && back.longitude_units == r->longitude_units));
    CHECK(back.altitude_metres == (back.position == LINDENSCOOP_DEGREES ? r->altitude_metres : 0));
}

/* What stands behind the numbers of a record makes no difference */
static void call_write(void)
{
    lindenscoop_record r;
    uint32_t there[NUMBERS + 2];
    uint8_t alone[200];
    size_t written_there = 77, written_alone = 77, numbers_length = cut(NUMBERS), length = draw(3) ? 118 + draw(60) : draw(120);
    uint32_t form = random_form();
    random_record(&r);
    memset(there, FILLING, sizeof there);
    memcpy(there, &r, sizeof r);
    const uint32_t *numbers = lend(0, there, 4 * numbers_length);
    uint8_t *out = lend(1, NULL, length);
    size_t *written = lend(2, &written_there, sizeof written_there);
    uint32_t answer = seen(lindenscoop_write_numbers(form, numbers, numbers_length, out, length, written));
    CHECK(answer == (numbers_length < NUMBERS ? 10 : lindenscoop_write(form, &r, alone, length, &written_alone)));
    CHECK(memcmp(numbers, there, 4 * numbers_length) == 0);
    CHECK(answer == 0 ? *written == written_alone && memcmp(out, alone, *written) == 0 : *written == 0);
    CHECK(*written <= length && is_filled(out + *written, length - *written));
    if (answer == 0)
        check_back(form, &r, out, *written);
}

static void call_search(void)
{
    unsigned char bytes[400];
    uint32_t form = random_form();
    size_t length = draw(3) ? random_bytes(form, bytes, 400) : random_string(form, bytes, 400);
    size_t start = draw(10) ? draw(2) * draw(80) : draw(2) ? length : SIZE_MAX - draw(70);
    size_t numbers_length = cut(NUMBERS), place_there = 77;
    uint8_t *input = lend(0, bytes, length);
    uint32_t *numbers = lend(1, NULL, 4 * numbers_length);
    size_t *place = lend(2, &place_there, sizeof place_there);
    uint32_t answer = seen(lindenscoop_search_numbers(form, input, length, start, place, numbers, numbers_length));
    CHECK((answer == 10) == (numbers_length < NUMBERS));
    CHECK((answer == 1) == (answer != 10 && !is_serial(form)));
    CHECK(answer == 0 ? *place >= start && *place < length : *place == 0);
    CHECK(answer == 10 ? is_filled(numbers, 4 * numbers_length) : is_filled(numbers + NUMBERS, 4 * (numbers_length - NUMBERS)));
}

/* A state: started, or any bytes */
static void random_state(uint32_t form, unsigned char *state)
{
    lindenscoop_listener listener;
    for (int i = 0; i < STATE; i++)
        state[i] = (unsigned char)draw(256);
    if (draw(3)) {
        lindenscoop_start(form, &listener);
        memcpy(state, listener.bytes, STATE);
    } else if (draw(4)) {
        state[AT] = (unsigned char)draw(80);
        state[KEPT] = (unsigned char)draw(34);
        state[DISTANCE] = (unsigned char)draw(34);
        state[FORM] = (unsigned char)((draw(8) ? LINDENSCOOP_STATE_VERSION : draw(16)) << 4 | (draw(8) ? serial_form() : draw(16)));
    }
}

static void call_start(void)
{
    uint32_t form = random_form();
    size_t length = cut(STATE);
    uint8_t *state = lend(0, NULL, length);
    uint32_t answer = seen(lindenscoop_start_raw(form, state, length));
    CHECK(answer == (length < STATE ? 10u : is_serial(form) ? 0u : 1u));
    CHECK(answer == 10 ? is_filled(state, length) : is_filled(state + STATE, length - STATE));
    CHECK(answer == 10 || state[FORM] == (LINDENSCOOP_STATE_VERSION << 4 | (answer ? 0 : form)));
}

/* All at once and byte by byte come to the same */
static void call_feed(void)
{
    unsigned char bytes[400], before[STATE + 2];
    lindenscoop_record record;
    lindenscoop_listener one;
    uint32_t form = sometimes(serial_form(), draw(17)), answer, single = 0;
    size_t length = random_bytes(form, bytes, 400), state_length = cut(STATE), numbers_length = cut(NUMBERS), used_there = 77, i = 0;
    memset(before, FILLING, sizeof before);
    random_state(form, before);
    uint8_t *state = lend(0, before, state_length);
    uint8_t *input = lend(1, bytes, length);
    uint32_t *numbers = lend(2, NULL, 4 * numbers_length);
    size_t *used = lend(3, &used_there, sizeof used_there);
    answer = seen(lindenscoop_feed_all_numbers(state, state_length, input, length, used, numbers, numbers_length));
    if (answer == 10) {
        CHECK(state_length < STATE || numbers_length < NUMBERS);
        CHECK(*used == 0 && memcmp(state, before, state_length) == 0 && is_filled(numbers, 4 * numbers_length));
        return;
    }
    memcpy(one.bytes, before, STATE);
    while (i < length && single == 0)
        single = lindenscoop_feed(&one, bytes[i++], &record);
    CHECK(answer == single && *used == i && memcmp(state, one.bytes, STATE) == 0);
    CHECK(answer == 100 ? memcmp(numbers, &record, sizeof record) == 0 : is_filled(numbers, 4 * numbers_length));
    heard[before[FORM] & 15] += answer == 100;
    CHECK(is_filled(numbers + NUMBERS, 4 * (numbers_length - NUMBERS)) && is_filled(state + STATE, state_length - STATE));
}

/* One byte at the edge of short buffers */
static void call_feed_byte(void)
{
    unsigned char before[STATE + 2];
    size_t state_length = cut(STATE), numbers_length = cut(NUMBERS);
    memset(before, FILLING, sizeof before);
    random_state(serial_form(), before);
    uint8_t *state = lend(0, before, state_length);
    uint32_t *numbers = lend(1, NULL, 4 * numbers_length);
    uint32_t answer = seen(lindenscoop_feed_numbers(state, state_length, (uint8_t)draw(256), numbers, numbers_length));
    CHECK((answer == 10) == (state_length < STATE || numbers_length < NUMBERS));
    CHECK(answer == 100 || is_filled(numbers, 4 * numbers_length));
    CHECK((answer != 10 && answer != 11) || memcmp(state, before, state_length) == 0);
    CHECK(answer == 10 || answer == 11 || (before[FORM] >> 4 == LINDENSCOOP_STATE_VERSION && is_serial(before[FORM] & 15)));
}

/* A string that ends too early behind the last one: the distance is lowered in front of its last byte */
static void call_overlap(void)
{
    unsigned char bytes[174];
    lindenscoop_listener listener;
    lindenscoop_record record;
    uint32_t form = serial_form(), numbers[NUMBERS], answer;
    size_t length = random_string(form, bytes, sizeof bytes), used = 0;
    if (length == 0 || lindenscoop_read(form, bytes, length, &record) != 0)
        return;
    lindenscoop_start(form, &listener);
    memset(numbers, FILLING, sizeof numbers);
    CHECK(lindenscoop_feed_all_numbers(listener.bytes, STATE, bytes, length - 1, &used, numbers, NUMBERS) == 0 && used == length - 1);
    CHECK(listener.bytes[KEPT] == length - 1 && listener.bytes[DISTANCE] == length);
    listener.bytes[DISTANCE] = (uint8_t)(draw(2) ? length - 1 : draw((uint32_t)length - 1));
    used = listener.bytes[DISTANCE];
    answer = seen(lindenscoop_feed_numbers(listener.bytes, STATE, bytes[length - 1], numbers, NUMBERS));
    CHECK(answer == (used < length - 1 ? 13u : 100u));
    CHECK(answer == 13 ? is_filled(numbers, sizeof numbers) && listener.bytes[DISTANCE] == used + 1 : memcmp(numbers, &record, sizeof record) == 0 && listener.bytes[DISTANCE] == 0);
}

/* The marks are where a listener hands out */
static void call_mark(void)
{
    unsigned char bytes[400];
    lindenscoop_record record;
    lindenscoop_listener listener;
    uint32_t form = random_form();
    size_t length = random_bytes(form, bytes, 400), room = length + draw(3) - (length ? draw(2) : 0);
    uint8_t *input = lend(0, bytes, length);
    uint8_t *marks = lend(1, NULL, room);
    uint32_t answer = seen(lindenscoop_mark_raw(form, input, length, marks, room));
    CHECK(answer == (!is_serial(form) ? 1u : room < length ? 10u : 0u));
    if (answer != 0) {
        CHECK(is_filled(marks, room));
        return;
    }
    lindenscoop_start(form, &listener);
    for (size_t i = 0; i < length; i++)
        CHECK(marks[i] == (lindenscoop_feed(&listener, bytes[i], &record) == LINDENSCOOP_HEARD));
    CHECK(is_filled(marks + length, room - length));
}

/* A date has a number where a string can be written of it, and the day behind it in its month has the next one */
static void call_days_since_1980(void)
{
    lindenscoop_record r;
    uint8_t out[LINDENSCOOP_LONGEST_STRING];
    size_t written = 0;
    uint32_t next = 77, year = 77;
    memset(&r, 0, sizeof r);
    r.date = LINDENSCOOP_FULL_DATE;
    r.yy = sometimes(draw(100), draw(2) ? 100 + draw(2000) : 0xffffffffu - draw(3));
    r.month = sometimes(1 + draw(12), draw(2) ? draw(14) : 0xffffffffu - draw(3));
    r.day = sometimes(draw(34), 0xffffffffu - draw(3));
    uint32_t *number = lend(0, NULL, sizeof *number);
    uint32_t answer = seen(lindenscoop_days_since_1980_raw(r.yy, r.month, r.day, number));
    CHECK(answer == (lindenscoop_write(LINDENSCOOP_BLOCK, &r, out, sizeof out, &written) == LINDENSCOOP_OK ? 0u : 4u));
    CHECK(answer == 0 || *number == 0);
    if (answer == 0 && lindenscoop_full_year(r.yy, &year) && lindenscoop_days_since_1980(year, r.month, r.day + 1, &next) == LINDENSCOOP_OK)
        CHECK(next == *number + 1);
}

/* Two digits have a year of the hundred from 1980 on that ends in them; no other number has one */
static void call_full_year(void)
{
    uint32_t yy = sometimes(draw(100), draw(2) ? 100 + draw(2000) : 0xffffffffu - draw(3));
    uint32_t *year = lend(0, NULL, sizeof *year);
    uint32_t answer = seen(lindenscoop_full_year_raw(yy, year));
    CHECK(answer == (yy < 100 ? 0u : 4u));
    CHECK(answer == 0 ? 1980 <= *year && *year <= 2079 && *year % 100 == yy : *year == 0);
}

/* ---- Runs of seconds, with a plain model of them ---- */

enum { ROWS = LINDENSCOOP_ROWS, RACKS = LINDENSCOOP_RACKS, RACK_ROWS = LINDENSCOOP_RACK_ROWS, MOST_ROWS = 73 /* that have room */ };

static uint32_t month_days(uint32_t yy, uint32_t month)
{
    static const uint32_t days[] = {31, 28, 31, 30, 31, 30, 31, 31, 30, 31, 30, 31};
    /* of 1980 to 2079 every fourth year is a leap year, 2000 too */
    return month < 1 || month > 12 ? 0 : days[month - 1] + (month == 2 && yy % 4 == 0);
}

static int is_second(lindenscoop_second s)
{
    return s.yy < 100 && 1 <= s.day && s.day <= month_days(s.yy, s.month) && s.hour < 24 && s.minute < 60 && s.second <= 60;
}

/* Second 0 of the next minute; 0 where the calendar has none */
static int next_minute(lindenscoop_second *s)
{
    s->second = 0;
    if (++s->minute < 60)
        return 1;
    s->minute = 0;
    if (++s->hour < 24)
        return 1;
    s->hour = 0;
    if (++s->day <= month_days(s->yy, s->month))
        return 1;
    s->day = 1;
    if (++s->month <= 12)
        return 1;
    s->month = 1;
    s->yy = (s->yy + 1) % 100;
    return s->yy != 80;
}

static int same_second(lindenscoop_second one, lindenscoop_second other)
{
    return memcmp(&one, &other, sizeof one) == 0;
}

static int is_next(lindenscoop_second before, lindenscoop_second after)
{
    lindenscoop_second within = before, behind = before;
    within.second++;
    if (before.second < 60 && same_second(within, after))
        return 1;
    return before.second >= 59 && next_minute(&behind) && same_second(behind, after);
}

/* The second that a record tells; 0 where it tells none. That a record is bad is for the writer of the block, which takes every other, to say */
static int told_second(const lindenscoop_record *r, lindenscoop_second *s)
{
    uint8_t out[LINDENSCOOP_LONGEST_STRING];
    size_t written = 0;
    s->yy = r->yy, s->month = r->month, s->day = r->day;
    s->hour = r->hour, s->minute = r->minute, s->second = r->second;
    return r->date == LINDENSCOOP_FULL_DATE && lindenscoop_write(LINDENSCOOP_BLOCK, r, out, sizeof out, &written) == LINDENSCOOP_OK;
}

static uint32_t rows_of(const lindenscoop_row *rows, uint32_t used, uint32_t rack)
{
    uint32_t count = 0;
    for (uint32_t row = 0; row < used; row++)
        count += rows[row].rack == rack;
    return count;
}

/* The newest row of a rack; null where it has none in use */
static lindenscoop_row *newest_of(lindenscoop_row *rows, uint32_t used, uint32_t rack)
{
    while (used-- > 0)
        if (rows[used].rack == rack)
            return &rows[used];
    return NULL;
}

static int is_table(lindenscoop_row *rows, size_t length, uint32_t used)
{
    if (length != ROWS || used > ROWS || rows_of(rows, used, 0) + rows_of(rows, used, 1) != used)
        return 0;
    for (uint32_t rack = 0; rack < RACKS; rack++) {
        const lindenscoop_row *newest = newest_of(rows, used, rack);
        if (newest && (rows_of(rows, used, rack) > RACK_ROWS || !is_second(newest->run.last) || newest->run.count > 4000000000u))
            return 0;
    }
    return 1;
}

/* What is to be answered, with the rows changed as they are to be */
static lindenscoop_added model_add(lindenscoop_row *rows, size_t length, uint32_t used, uint32_t rack, const lindenscoop_record *r)
{
    lindenscoop_added added = {LINDENSCOOP_OK, used};
    lindenscoop_row *newest;
    lindenscoop_second s;
    if (rack >= RACKS)
        added.answer = LINDENSCOOP_NO_RACK;
    else if (!is_table(rows, length, used))
        added.answer = LINDENSCOOP_BAD_TABLE;
    else if (!told_second(r, &s))
        added.answer = LINDENSCOOP_NO_SECOND;
    else if ((newest = newest_of(rows, used, rack)) != NULL && is_next(newest->run.last, s))
        newest->run.last = s, newest->run.count++;
    else if (rows_of(rows, used, rack) == RACK_ROWS)
        added.answer = LINDENSCOOP_NO_ROW;
    else {
        lindenscoop_row *behind = &rows[added.used++];
        behind->rack = rack;
        behind->run.first = s, behind->run.last = s, behind->run.count = 1;
    }
    return added;
}

/* A second, mostly near the end of a minute, a day, a month or the calendar; at times one that there is not */
static lindenscoop_second random_second(void)
{
    static const uint32_t edges[] = {0, 13, 24, 29, 30, 31, 32, 60, 61, 100, 0x7fffffff, 0xffffffff};
    lindenscoop_second s;
    s.yy = draw(3) ? draw(100) : 79;
    s.month = draw(3) ? 1 + draw(12) : 12;
    s.day = draw(2) ? month_days(s.yy, s.month) : 1 + draw(28);
    s.hour = draw(2) ? draw(24) : 23;
    s.minute = draw(2) ? draw(60) : 59;
    s.second = draw(2) ? draw(61) : 58 + draw(3);
    if (!draw(10)) {
        uint32_t numbers[6];
        memcpy(numbers, &s, sizeof s);
        numbers[draw(6)] = edges[draw(sizeof edges / sizeof *edges)];
        memcpy(&s, numbers, sizeof s);
    }
    return s;
}

/* A next second; behind 60 at times 61, which there is not */
static lindenscoop_second go_on(lindenscoop_second s)
{
    if (s.second >= 59 && draw(3))
        next_minute(&s);
    else
        s.second++;
    return s;
}

/* A next second, the same one, one near it, or any */
static lindenscoop_second step(lindenscoop_second s)
{
    switch (draw(9)) {
    case 0:
        return random_second();
    case 1:
        return s;
    case 2:
        s.second = draw(62);
        return s;
    case 3:
        next_minute(&s);
        next_minute(&s);
        return s;
    default:
        return go_on(s);
    }
}

/* A record of a second, alone or with every other field, which may be bad; at times any record */
static void random_telling(lindenscoop_record *r, lindenscoop_second s)
{
    random_record(r);
    if (!draw(10))
        return;
    if (draw(3))
        memset(r, 0, sizeof *r);
    r->date = sometimes(LINDENSCOOP_FULL_DATE, draw(4));
    r->yy = s.yy, r->month = s.month, r->day = s.day;
    r->hour = s.hour, r->minute = s.minute, r->second = s.second;
}

/* The racks of rows: 32 of each in any order, or one after the other; at times one row of the other or of none */
static void random_racks(lindenscoop_row *rows)
{
    const uint32_t first = draw(RACKS), apart = draw(2);
    for (uint32_t i = 0; i < MOST_ROWS; i++)
        rows[i].rack = i < RACK_ROWS ? first : 1 - first;
    for (uint32_t i = ROWS - 1; !apart && i > 0; i--) {
        const uint32_t other = draw(i + 1), rack = rows[i].rack;
        rows[i].rack = rows[other].rack;
        rows[other].rack = rack;
    }
    if (!draw(10))
        rows[draw(ROWS)].rack = draw(2) ? draw(3) : 0xffffffffu - draw(2);
}

/* Any table: every row afterwards, and the rows around it, are those of the model */
static void call_add_second(void)
{
    lindenscoop_row before[MOST_ROWS], expected[MOST_ROWS], *newest;
    lindenscoop_record r;
    size_t length = sometimes(ROWS, draw(MOST_ROWS + 1));
    uint32_t used = draw(3) ? draw(ROWS + 1) : draw(3) ? ROWS : draw(2) ? ROWS + draw(3) : 0xffffffffu - draw(2) * 0x7fffffffu;
    uint32_t rack = sometimes(draw(RACKS), draw(2) ? draw(4) : 0xffffffffu - draw(2));
    random_racks(before);
    for (int i = 0; i < MOST_ROWS; i++) {
        before[i].run.first = random_second();
        before[i].run.last = random_second();
        before[i].run.count = sometimes(draw(5000), draw(2) ? 4000000000u + draw(2) : 0xffffffffu);
    }
    newest = used <= MOST_ROWS ? newest_of(before, used, sometimes(rack, draw(RACKS))) : NULL;
    random_telling(&r, newest ? step(newest->run.last) : random_second());
    memcpy(expected, before, sizeof expected);
    const lindenscoop_added wanted = model_add(expected, length, used, rack, &r);
    lindenscoop_row *rows = lend(0, before, length * sizeof *rows);
    const lindenscoop_added added = lindenscoop_add_rack_second_numbers(rows, length, used, rack, r);
    CHECK(seen(added.answer) == wanted.answer && added.used == wanted.used);
    CHECK(memcmp(rows, expected, length * sizeof *rows) == 0);
    joined += added.answer == LINDENSCOOP_OK && added.used == used;
    opened += added.answer == LINDENSCOOP_OK && added.used != used;
}

/* The rows of a rack are the runs of these seconds: each row is walked over from its first one to its last */
static void check_afresh(const lindenscoop_runs *runs, uint32_t rack, const lindenscoop_second *seconds, size_t length)
{
    size_t at = 0;
    for (uint32_t row = 0; row < runs->used; row++) {
        const lindenscoop_run *run = &runs->rows[row].run;
        size_t head = at;
        if (runs->rows[row].rack != rack)
            continue;
        CHECK(head < length);
        for (at++; at < length && is_next(seconds[at - 1], seconds[at]);)
            at++;
        CHECK(same_second(run->first, seconds[head]) && same_second(run->last, seconds[at - 1]));
        CHECK(run->count == at - head);
    }
    CHECK(at == length);
}

/* A table that only these calls write, from an empty one on: the rows of each rack are the runs, worked out afresh, of its records not
   refused, and stand in the order in which they were opened */
static void call_runs(void)
{
    enum { MOST = 300 };
    lindenscoop_second kept[RACKS][MOST], s[RACKS] = {random_second(), random_second()}, told;
    lindenscoop_runs runs;
    lindenscoop_record r;
    size_t length[RACKS] = {0, 0}, most = draw(MOST + 1);
    uint32_t steady = 1 + draw(20), often = 1 + draw(5), order[ROWS];
    memset(&runs, FILLING, sizeof runs);
    lindenscoop_runs_clear(&runs);
    for (size_t i = 0; i < most; i++) {
        const uint32_t rack = !draw(often), used = runs.used, full = rows_of(runs.rows, used, rack) == RACK_ROWS;
        random_telling(&r, s[rack]);
        const int tells = told_second(&r, &told);
        const uint32_t answer = seen(lindenscoop_add_second(&runs, rack, &r));
        CHECK(tells ? answer == LINDENSCOOP_OK || (answer == LINDENSCOOP_NO_ROW && full) : answer == LINDENSCOOP_NO_SECOND);
        CHECK(runs.used == used || (answer == LINDENSCOOP_OK && runs.used == used + 1));
        if (runs.used > used)
            order[used] = rack;
        if (answer == LINDENSCOOP_OK)
            kept[rack][length[rack]++] = told;
        s[rack] = !is_second(s[rack]) ? random_second() : draw(steady) ? go_on(s[rack]) : step(s[rack]);
    }
    for (uint32_t rack = 0; rack < RACKS; rack++)
        check_afresh(&runs, rack, kept[rack], length[rack]);
    for (uint32_t row = 0; row < ROWS; row++)
        CHECK(row < runs.used ? runs.rows[row].rack == order[row] : is_filled(&runs.rows[row], sizeof runs.rows[row]));
}

/* Null with length 0, where the header allows it */
static void call_with_null(void)
{
    lindenscoop_record r;
    lindenscoop_listener listener;
    size_t n = 77;
    random_record(&r);
    CHECK(lindenscoop_read(1 + draw(12), NULL, 0, &r) == 2);
    CHECK(lindenscoop_search(serial_form(), NULL, 0, draw(3), &n, &r) == 12 && n == 0);
    CHECK(lindenscoop_write(5, &r, NULL, 0, &n) == 8 && n == 0);
    CHECK(lindenscoop_start(serial_form(), &listener) == 0);
    CHECK(lindenscoop_feed_all(&listener, NULL, 0, &n, &r) == 0 && n == 0);
    CHECK(lindenscoop_mark(serial_form(), NULL, 0, NULL, 0) == 0);
}

int main(int argc, char **argv)
{
    static void (*const all[])(void) = {call_read, call_write, call_search, call_start, call_feed, call_feed_byte, call_overlap, call_mark, call_days_since_1980, call_full_year, call_add_second, call_runs, call_with_null};
    unsigned long long most = argc > 2 ? strtoull(argv[2], NULL, 10) : 200000;
    if (argc > 1)
        seed = strtoull(argv[1], NULL, 10);
    drawn = seed;
    make_rooms();
    for (calls = 0; calls < most; calls++) {
        memset(lent, 0, sizeof lent);
        all[draw(sizeof all / sizeof *all)]();
    }
    if (most >= 20000)
        for (int i = 0; i <= LINDENSCOOP_NO_RACK; i++)
            CHECK(answers[i] > 0);
    CHECK(most < 20000 || (answers[LINDENSCOOP_BAD_TABLE] > 0 && joined > 0 && opened > 0));
    for (size_t i = 0; most >= 20000 && i < sizeof serial_forms / sizeof *serial_forms; i++)
        CHECK(heard[serial_forms[i]] > 0);
    printf("random_calls: seed %llu, %llu calls;", seed, most);
    for (int i = 0; i < 128; i++)
        if (answers[i])
            printf(" %d: %u", i, answers[i]);
    printf("\n");
    return 0;
}
