/*
 * The header's functions over records, structs and dates, on values that are known. Compiled as C and as C++, under the sanitizers.
 * Records come from blocks, form 9, which spell every field. Kinds of a fraction and of a position are in kinds.c.
 */
#include <time.h>

#include "trial.h"

static const char absent[] = "date=-\ntime=00:00:00\nfraction=-\nchannel=-\nsync=-\nfix=-\nutc=-\nsummer=-\nchange=-\nleap=-\noffset=-\nposition=-\ndsp=-\nlsp=-\n";
static const char whole[] = "date=24-02-29\ntime=23:59:60\nfraction=0000431\nchannel=1\nsync=no\nfix=yes\nutc=no\nsummer=yes\nchange=no\nleap=yes\noffset=-03:30\nposition=-047.3500 +008.0625 0431\ndsp=no\nlsp=yes\n";
static const char other[] = "date=day-060\ntime=01:02:03\nfraction=431\nchannel=0\nsync=yes\nfix=no\nutc=yes\nsummer=no\nchange=yes\nleap=no\noffset=+05:45\nposition=+000.0000 -180.0000 0000\ndsp=yes\nlsp=no\n";

/* No field is there, and what stands behind the pointers stays. */
static void check_nothing(const lindenscoop_record *r)
{
    uint32_t a = 77, b = 77, c = 77;
    int32_t x = -77, y = -77;
    bool yes = true;
    CHECK(!lindenscoop_get_date(r, &a, &b, &c) && !lindenscoop_get_day_of_year(r, &a));
    CHECK(!lindenscoop_get_fraction(r, &a, &b) && !lindenscoop_get_hundredths(r, &a) && !lindenscoop_get_channel(r, &a));
    CHECK(!lindenscoop_get_offset(r, &x) && !lindenscoop_get_position(r, &x, &y, &c) && !lindenscoop_get_position_minutes(r, &x, &y));
    CHECK(!lindenscoop_get_sync(r, &yes) && !lindenscoop_get_fix(r, &yes) && !lindenscoop_get_utc(r, &yes));
    CHECK(!lindenscoop_get_summer(r, &yes) && !lindenscoop_get_change(r, &yes) && !lindenscoop_get_leap(r, &yes));
    CHECK(!lindenscoop_get_dsp(r, &yes) && !lindenscoop_get_lsp(r, &yes));
    CHECK(!lindenscoop_is_yes(r->sync) && !lindenscoop_is_no(r->sync));
    CHECK(a == 77 && b == 77 && c == 77 && x == -77 && y == -77 && yes);
}

/* The flags in the order of the struct, y and n, - for one that is not there */
static void spell_flags(const lindenscoop_record *r, char *word)
{
    bool yes[8] = {false, false, false, false, false, false, false, false};
    bool there[8];
    there[0] = lindenscoop_get_sync(r, yes);
    there[1] = lindenscoop_get_fix(r, yes + 1);
    there[2] = lindenscoop_get_utc(r, yes + 2);
    there[3] = lindenscoop_get_summer(r, yes + 3);
    there[4] = lindenscoop_get_change(r, yes + 4);
    there[5] = lindenscoop_get_leap(r, yes + 5);
    there[6] = lindenscoop_get_dsp(r, yes + 6);
    there[7] = lindenscoop_get_lsp(r, yes + 7);
    for (int i = 0; i < 8; i++)
        word[i] = there[i] ? (yes[i] ? 'y' : 'n') : '-';
    word[8] = '\0';
}

static void check_flags(const lindenscoop_record *r, const char *expected)
{
    char word[9];
    spell_flags(r, word);
    CHECK(strcmp(word, expected) == 0);
    CHECK(lindenscoop_is_yes(r->sync) == (expected[0] == 'y') && lindenscoop_is_no(r->sync) == (expected[0] == 'n'));
}

static void check_whole(void)
{
    uint32_t a = 0, b = 0, c = 0;
    int32_t x = 0, y = 0;
    lindenscoop_record r = record_of(whole);
    CHECK(lindenscoop_get_date(&r, &a, &b, &c) && a == 2024 && b == 2 && c == 29);
    CHECK(!lindenscoop_get_day_of_year(&r, &a) && a == 2024);
    CHECK(lindenscoop_get_fraction(&r, &a, &b) && a == 431 && b == 10000000);
    CHECK(lindenscoop_get_channel(&r, &a) && a == 1);
    CHECK(lindenscoop_get_offset(&r, &x) && x == -210);
    CHECK(lindenscoop_get_position(&r, &x, &y, &a) && x == -473500 && y == 80625 && a == 431);
    check_flags(&r, "nynynyny");
}

static void check_other(void)
{
    uint32_t a = 77, b = 77, c = 77;
    int32_t x = 1, y = 0;
    lindenscoop_record r = record_of(other);
    CHECK(!lindenscoop_get_date(&r, &a, &b, &c) && a == 77 && b == 77 && c == 77);
    CHECK(lindenscoop_get_day_of_year(&r, &a) && a == 60);
    CHECK(lindenscoop_get_fraction(&r, &a, &b) && a == 431 && b == 1000);
    CHECK(lindenscoop_get_channel(&r, &a) && a == 0);
    CHECK(lindenscoop_get_offset(&r, &x) && x == 345);
    CHECK(lindenscoop_get_position(&r, &x, &y, &a) && x == 0 && y == -1800000 && a == 0);
    check_flags(&r, "ynynynyn");
}

/* Kinds that no field has, from a struct that was never filled in. */
static void check_no_kinds(void)
{
    static const uint32_t kinds[] = {3, 4, 100, 0x80000000u, 0xffffffffu};
    for (size_t k = 0; k < sizeof kinds / sizeof *kinds; k++) {
        uint32_t numbers[LINDENSCOOP_RECORD_NUMBERS];
        lindenscoop_record r;
        for (size_t i = 0; i < LINDENSCOOP_RECORD_NUMBERS; i++)
            numbers[i] = kinds[k];
        memcpy(&r, numbers, sizeof r);
        if (r.fraction == LINDENSCOOP_HUNDREDTHS) /* the one field that has a third kind */
            r.fraction = LINDENSCOOP_ABSENT;
        check_nothing(&r);
    }
}

/* Each flag is got from its own place: one at a time, the others not there. */
static void check_each_flag(void)
{
    for (size_t i = 0; i < 8; i++)
        for (int yes = 0; yes < 2; yes++) {
            lindenscoop_record r = record_of(absent);
            uint32_t *const flags[] = {&r.sync, &r.fix, &r.utc, &r.summer, &r.change, &r.leap, &r.dsp, &r.lsp};
            char expected[] = "--------";
            *flags[i] = lindenscoop_flag(yes != 0);
            expected[i] = yes ? 'y' : 'n';
            check_flags(&r, expected);
        }
}

/* Signs and magnitudes that no record has: no answer, and no overflow. */
static void check_signs(void)
{
    uint32_t c = 77;
    int32_t x = -77, y = -77;
    lindenscoop_record r = record_of(whole);
    r.offset_minutes = r.longitude_units = 0x80000000u;
    CHECK(!lindenscoop_get_offset(&r, &x) && x == -77);
    CHECK(!lindenscoop_get_position(&r, &x, &y, &c) && x == -77 && y == -77 && c == 77);
    r.longitude_units = 1;
    r.latitude_units = 0xffffffffu;
    CHECK(!lindenscoop_get_position(&r, &x, &y, &c) && x == -77);
    r.latitude_units = r.offset_minutes = 0x7fffffffu;
    CHECK(lindenscoop_get_offset(&r, &x) && x == -0x7fffffff);
    CHECK(lindenscoop_get_position(&r, &x, &y, &c) && x == -0x7fffffff && y == 1 && c == 431);
    r.offset_negative = r.south = 2;
    CHECK(!lindenscoop_get_offset(&r, &y) && !lindenscoop_get_position(&r, &y, &y, &c) && y == 1);
    r.yy = 100;
    CHECK(!lindenscoop_get_date(&r, &c, &c, &c) && c == 431);
    lindenscoop_set_offset(&r, INT32_MIN);
    CHECK(r.offset_negative == 1 && r.offset_minutes == 0x80000000u && !lindenscoop_get_offset(&r, &y));
}

/* What is set and written is the block that was meant. */
static void check_set(const char *block, bool full)
{
    char out[LINDENSCOOP_LONGEST_STRING + 1];
    size_t written = 0;
    lindenscoop_record r = record_of(absent);
    check_nothing(&r);
    r.hour = full ? 23 : 1, r.minute = full ? 59 : 2, r.second = full ? 60 : 3;
    if (full)
        lindenscoop_set_date(&r, 2024, 2, 29);
    else
        lindenscoop_set_day_of_year(&r, 60);
    lindenscoop_set_fraction(&r, full ? LINDENSCOOP_TEN_MILLIONTHS : LINDENSCOOP_THOUSANDTHS, 431);
    lindenscoop_set_channel(&r, full);
    r.sync = r.utc = r.change = r.dsp = lindenscoop_flag(!full);
    r.fix = r.summer = r.leap = r.lsp = lindenscoop_flag(full);
    lindenscoop_set_offset(&r, full ? -210 : 345);
    lindenscoop_set_position(&r, full ? -473500 : 0, full ? 80625 : -1800000, full ? 431 : 0);
    CHECK(lindenscoop_write(LINDENSCOOP_BLOCK, &r, out, sizeof out, &written) == LINDENSCOOP_OK);
    out[written] = '\0';
    CHECK(strcmp(out, block) == 0);
}

/* A year of 1980 to 2079 is set, written as its two digits and got again with its century; of any other year no string is written. */
static void check_years(void)
{
    static const uint32_t none[] = {0, 24, 80, 99, 1879, 1979, 2080, 2099, 2179, 0xffffffffu};
    char out[17] = "", expected[17];
    size_t written = 0;
    uint32_t year = 77, month = 77, day = 77;
    lindenscoop_record r = record_of(absent);
    for (uint32_t set = 1980; set <= 2079; set++) {
        const unsigned yy = set < 2000 ? set - 1900 : set - 2000;
        snprintf(expected, sizeof expected, "XGU%02u0630000000\r", yy);
        lindenscoop_set_date(&r, set, 6, 30);
        CHECK(r.yy == yy && lindenscoop_two_digits(set) == yy && lindenscoop_full_year(yy, &year) && year == set);
        CHECK(lindenscoop_write(LINDENSCOOP_RACAL, &r, out, 16, &written) == LINDENSCOOP_OK && strcmp(out, expected) == 0);
        CHECK(lindenscoop_get_date(&r, &year, &month, &day) && year == set && month == 6 && day == 30);
    }
    for (size_t i = 0; i < sizeof none / sizeof *none; i++) {
        lindenscoop_set_date(&r, none[i], 6, 30);
        CHECK(r.yy > 99 && lindenscoop_two_digits(none[i]) > 99 && !lindenscoop_get_date(&r, &year, &month, &day) && year == 2079);
        CHECK(lindenscoop_write(LINDENSCOOP_RACAL, &r, out, 16, &written) == LINDENSCOOP_BAD_RECORD);
    }
}

/* There is a year of two digits and of no other number; where there is none, the exported function stores 0 and the other one nothing. */
static void check_no_year(void)
{
    static const uint32_t none[] = {100, 180, 1980, 1991, 2000, 2079, 0x80000000u, 0xffffffffu};
    for (size_t i = 0; i < sizeof none / sizeof *none; i++) {
        uint32_t year = 77, number = 77;
        CHECK(!lindenscoop_full_year(none[i], &year) && year == 77);
        CHECK(lindenscoop_full_year_raw(none[i], &number) == LINDENSCOOP_OUT_OF_RANGE && number == 0);
    }
}

/* A string of 1991 with its weekday, a Tuesday, tells 1991 and is written back to the same bytes; with that of 2091, a Monday, it is refused. */
static void check_nineties(void)
{
    static const char tuesday[] = "\x02" "D:01.01.91;T:2;U:12.00.00;  U \x03", monday[] = "\x02" "D:01.01.91;T:1;U:12.00.00;  U \x03";
    char out[32];
    lindenscoop_record r;
    size_t written = 0;
    uint32_t year = 77, month = 77, day = 77;
    CHECK(lindenscoop_read(LINDENSCOOP_STANDARD, tuesday, 32, &r) == LINDENSCOOP_OK && r.yy == 91);
    CHECK(lindenscoop_get_date(&r, &year, &month, &day) && year == 1991 && month == 1 && day == 1);
    CHECK(lindenscoop_write(LINDENSCOOP_STANDARD, &r, out, sizeof out, &written) == LINDENSCOOP_OK && memcmp(out, tuesday, sizeof out) == 0);
    CHECK(lindenscoop_read(LINDENSCOOP_STANDARD, monday, 32, &r) == LINDENSCOOP_DISAGREEMENT);
}

/* A refused read or search stores the empty record; a listener stores a record where it hands one out, and only there. */
static void check_stored(void)
{
    static const char racal[] = "XGU000229000000\r";
    lindenscoop_listener listener;
    lindenscoop_record r, before, empty;
    size_t place = 77, used = 77;
    uint32_t year = 0, month = 0, day = 0;
    memset(&empty, 0, sizeof empty);
    memset(&r, 0xa5, sizeof r);
    before = r;
    CHECK(lindenscoop_start(LINDENSCOOP_RACAL, &listener) == LINDENSCOOP_OK);
    CHECK(lindenscoop_feed(&listener, 'X', &r) == LINDENSCOOP_OK && memcmp(&r, &before, sizeof r) == 0);
    CHECK(lindenscoop_feed_all(&listener, racal, 15, &used, &r) == LINDENSCOOP_OK && used == 15 && memcmp(&r, &before, sizeof r) == 0);
    CHECK(lindenscoop_feed(&listener, '\r', &r) == LINDENSCOOP_HEARD);
    CHECK(lindenscoop_get_date(&r, &year, &month, &day) && year == 2000 && month == 2 && day == 29);
    r = before;
    CHECK(lindenscoop_feed_all(&listener, racal, 16, &used, &r) == LINDENSCOOP_HEARD && used == 16 && r.day == 29 && r.sync == LINDENSCOOP_ABSENT);
    CHECK(lindenscoop_read(LINDENSCOOP_RACAL, racal, 15, &r) == LINDENSCOOP_WRONG_LENGTH && memcmp(&r, &empty, sizeof r) == 0);
    r = before;
    CHECK(lindenscoop_search(LINDENSCOOP_RACAL, racal, 16, 1, &place, &r) == LINDENSCOOP_NOT_FOUND && place == 0 && memcmp(&r, &empty, sizeof r) == 0);
    CHECK(lindenscoop_search(LINDENSCOOP_RACAL, racal, 16, 0, &place, &r) == LINDENSCOOP_OK && r.day == 29);
    CHECK(lindenscoop_start(LINDENSCOOP_FRAME, &listener) == LINDENSCOOP_UNKNOWN_FORM && lindenscoop_feed(&listener, 'X', &r) == LINDENSCOOP_BAD_STATE);
}

/* A state of another version is refused and left as it is, by one byte and by many; with its own it is fed on. */
static void check_versions(void)
{
    static const char racal[] = "XGU000229000000\r";
    static const uint8_t others[] = {0x05, 0x25, 0x35, 0x45, 0x85, 0x95, 0xe5, 0xf5}; /* the form behind no version, 2, 3, 4, 8, 9, 14, 15 */
    const unsigned form_at = LINDENSCOOP_LISTENER_BYTES - 1;
    lindenscoop_listener listener, stored;
    lindenscoop_record r, before;
    size_t used = 77;
    memset(&r, 0xa5, sizeof r);
    before = r;
    CHECK(lindenscoop_start(LINDENSCOOP_FRAME, &listener) == LINDENSCOOP_UNKNOWN_FORM && listener.bytes[form_at] >> 4 == LINDENSCOOP_STATE_VERSION);
    CHECK(lindenscoop_start(LINDENSCOOP_RACAL, &listener) == LINDENSCOOP_OK && listener.bytes[form_at] >> 4 == LINDENSCOOP_STATE_VERSION);
    CHECK(lindenscoop_feed_all(&listener, racal, 14, &used, &r) == LINDENSCOOP_OK && lindenscoop_feed(&listener, '0', &r) == LINDENSCOOP_OK);
    CHECK(listener.bytes[form_at] == (LINDENSCOOP_STATE_VERSION << 4 | LINDENSCOOP_RACAL));
    for (size_t i = 0; i < sizeof others; i++) {
        listener.bytes[form_at] = others[i];
        stored = listener;
        CHECK(lindenscoop_feed(&listener, '\r', &r) == LINDENSCOOP_BAD_STATE && memcmp(&listener, &stored, sizeof stored) == 0);
        CHECK(lindenscoop_feed(&listener, '0', &r) == LINDENSCOOP_BAD_STATE && memcmp(&listener, &stored, sizeof stored) == 0);
        CHECK(lindenscoop_feed_all(&listener, racal, 16, &used, &r) == LINDENSCOOP_BAD_STATE && used == 1 && memcmp(&listener, &stored, sizeof stored) == 0);
        CHECK(memcmp(&r, &before, sizeof r) == 0);
    }
    listener.bytes[form_at] = LINDENSCOOP_STATE_VERSION << 4 | LINDENSCOOP_RACAL;
    CHECK(lindenscoop_feed(&listener, '\r', &r) == LINDENSCOOP_HEARD && r.day == 29);
}

/* SAT strings, and the flags that each carries. */
static const struct {
    const char *string, *flags;
} sat[] = {{"\x02" "01.01.24/1/12:00:00UTC   \r\n\x03", "y-ynn---"},
           {"\x02" "31.03.24/7/01:59:60CET #!\r\n\x03", "n-nny---"},
           {"\x02" "31.03.24/7/03:00:00CEST  \r\n\x03", "y-nyn---"}};

/* They are read, written again as the same bytes, searched for and heard; the writer asks for the carried fields and no others. */
static void check_sat(void)
{
    char out[29];
    lindenscoop_listener listener;
    lindenscoop_record r, back;
    size_t n = 0;
    uint32_t year = 0, month = 0, day = 0;
    CHECK(lindenscoop_start(LINDENSCOOP_SAT, &listener) == LINDENSCOOP_OK);
    CHECK(listener.bytes[LINDENSCOOP_LISTENER_BYTES - 1] == (LINDENSCOOP_STATE_VERSION << 4 | LINDENSCOOP_SAT));
    for (size_t i = 0; i < sizeof sat / sizeof *sat; i++) {
        CHECK(lindenscoop_read(LINDENSCOOP_SAT, sat[i].string, 29, &r) == LINDENSCOOP_OK && strlen(sat[i].string) == 29);
        check_flags(&r, sat[i].flags);
        CHECK(lindenscoop_get_date(&r, &year, &month, &day) && year == 2024 && month == (i ? 3u : 1u) && day == (i ? 31u : 1u));
        CHECK(r.fraction == LINDENSCOOP_ABSENT && r.channel == LINDENSCOOP_ABSENT && r.offset == LINDENSCOOP_ABSENT && r.position == LINDENSCOOP_ABSENT);
        CHECK(lindenscoop_write(LINDENSCOOP_SAT, &r, out, 29, &n) == LINDENSCOOP_OK && n == 29 && memcmp(out, sat[i].string, 29) == 0);
        CHECK(lindenscoop_write(LINDENSCOOP_SAT, &r, out, 28, &n) == LINDENSCOOP_SHORT_BUFFER && n == 0);
        CHECK(lindenscoop_feed_all(&listener, sat[i].string, 29, &n, &back) == LINDENSCOOP_HEARD && n == 29 && memcmp(&back, &r, sizeof r) == 0);
        CHECK(lindenscoop_search(LINDENSCOOP_SAT, sat[i].string, 29, 0, &n, &back) == LINDENSCOOP_OK && n == 0 && memcmp(&back, &r, sizeof r) == 0);
        r.sync = LINDENSCOOP_ABSENT;
        CHECK(lindenscoop_write(LINDENSCOOP_SAT, &r, out, 29, &n) == LINDENSCOOP_MISSING_FIELD && n == 0);
    }
}

/* Each is refused with its number, and nothing is heard: words of other manuals, other ends, weekdays, a byte too few. */
static void check_sat_refused(void)
{
    static const struct {
        const char *string;
        uint32_t answer;
    } refused[] = {{"\x02" "01.01.24/1/12:00:00MEZ   \r\n\x03", 3}, {"\x02" "31.03.24/7/03:00:00MESZ  \r\n\x03", 3},
                   {"\x02" "01.01.24/1/12:00:00CETS  \r\n\x03", 3}, {"\x02" "01.01.24/1/12:00:00 UTC  \r\n\x03", 3},
                   {"\x02" "01.01.24/1/12:00:00UTC * \r\n\x03", 3}, {"\x02" "01.01.24/1/12:00:00UTC  A\r\n\x03", 3},
                   {"\x02" "01.01.24/8/12:00:00UTC   \r\n\x03", 4}, {"\x02" "01.01.24/0/12:00:00UTC   \r\n\x03", 4},
                   {"\x02" "01.01.24/2/12:00:00UTC   \r\n\x03", 5}, {"\x02" "01.01.24/1/12:00:00UTC  \r\n\x03", 2}};
    lindenscoop_listener listener;
    lindenscoop_record r;
    size_t used = 0;
    CHECK(lindenscoop_start(LINDENSCOOP_SAT, &listener) == LINDENSCOOP_OK);
    for (size_t i = 0; i < sizeof refused / sizeof *refused; i++) {
        size_t length = strlen(refused[i].string);
        CHECK(lindenscoop_read(LINDENSCOOP_SAT, refused[i].string, length, &r) == refused[i].answer);
        CHECK(lindenscoop_feed_all(&listener, refused[i].string, length, &used, &r) == LINDENSCOOP_OK && used == length);
    }
}

/* Of the numbers that fit in a state the listener knows 1..7, 10 and 12; any other one is refused, and left as it is. */
static void check_forms_of_states(void)
{
    lindenscoop_listener listener, stored;
    lindenscoop_record r;
    uint8_t last = LINDENSCOOP_STATE_VERSION << 4;
    for (uint32_t form = 0; form < 16; form++, last++) {
        bool serial = (1 <= form && form <= 7) || form == 10 || form == 12;
        CHECK(lindenscoop_start(form, &listener) == (serial ? LINDENSCOOP_OK : LINDENSCOOP_UNKNOWN_FORM));
        CHECK(lindenscoop_start(LINDENSCOOP_RACAL, &listener) == LINDENSCOOP_OK);
        listener.bytes[LINDENSCOOP_LISTENER_BYTES - 1] = last;
        stored = listener;
        CHECK(lindenscoop_feed(&listener, 'X', &r) == (serial ? LINDENSCOOP_OK : LINDENSCOOP_BAD_STATE));
        CHECK((memcmp(&listener, &stored, sizeof stored) == 0) == !serial);
    }
}

/* The frames of 24-01-01 00:00:00, sync yes, all else no: ones at 30, 52 and 56 for the date, 65 for an hour of offset, 64 for the sign, and
   75 wherever the others are odd in number. */
enum { FRAME_BYTES = 100 };
static const uint32_t frames[] = {LINDENSCOOP_FRAME, LINDENSCOOP_C37118};

static void set_frame(uint8_t *frame, bool hour, bool sign)
{
    for (int at = 0; at < FRAME_BYTES; at++)
        frame[at] = at == 0 || at % 10 == 9 ? 2 : 0;
    frame[30] = frame[52] = frame[56] = 1;
    frame[65] = hour;
    frame[64] = sign;
    frame[75] = hour == sign; /* where these two are alike, the ones so far are odd in number */
}

static lindenscoop_record framed_record(int32_t offset)
{
    lindenscoop_record r;
    memset(&r, 0, sizeof r);
    lindenscoop_set_date(&r, 2024, 1, 1);
    r.sync = lindenscoop_flag(true);
    r.summer = r.dsp = r.lsp = lindenscoop_flag(false);
    lindenscoop_set_offset(&r, offset);
    return r;
}

/* Sign 1 is an offset above zero in form 8 and below zero in form 11; by the other form a frame has the opposite offset. */
static void check_frames(void)
{
    for (int i = 0; i < 2; i++)
        for (int32_t offset = -60; offset <= 60; offset += 60) {
            const lindenscoop_record r = framed_record(offset), opposite = framed_record(-offset);
            uint8_t frame[FRAME_BYTES], out[FRAME_BYTES];
            lindenscoop_record back;
            size_t n = 0;
            set_frame(frame, offset != 0, i ? offset < 0 : offset > 0);
            CHECK(lindenscoop_write(frames[i], &r, out, sizeof out, &n) == LINDENSCOOP_OK && n == sizeof out && memcmp(out, frame, sizeof out) == 0);
            CHECK(lindenscoop_read(frames[i], frame, sizeof frame, &back) == LINDENSCOOP_OK && memcmp(&back, &r, sizeof r) == 0);
            CHECK(lindenscoop_read(frames[1 - i], frame, sizeof frame, &back) == LINDENSCOOP_OK && memcmp(&back, &opposite, sizeof back) == 0);
        }
}

/* What both refuse: sign 1 on a zero, a wrong parity, an offset that is not of half hours, a short buffer; and neither is serial. */
static void check_frames_refused(void)
{
    for (int i = 0; i < 2; i++) {
        const lindenscoop_record hour = framed_record(60), quarters = framed_record(45);
        uint8_t frame[FRAME_BYTES], out[FRAME_BYTES];
        lindenscoop_listener listener;
        lindenscoop_record r;
        size_t n = 77;
        set_frame(frame, false, true);
        CHECK(lindenscoop_read(frames[i], frame, sizeof frame, &r) == LINDENSCOOP_DISAGREEMENT);
        frame[75] ^= 1;
        CHECK(lindenscoop_read(frames[i], frame, sizeof frame, &r) == LINDENSCOOP_WRONG_CHECKSUM);
        CHECK(lindenscoop_write(frames[i], &quarters, out, sizeof out, &n) == LINDENSCOOP_NOT_EXPRESSIBLE && n == 0);
        CHECK(lindenscoop_write(frames[i], &hour, out, sizeof out - 1, &n) == LINDENSCOOP_SHORT_BUFFER && n == 0);
        set_frame(frame, true, true);
        CHECK(lindenscoop_search(frames[i], frame, sizeof frame, 0, &n, &r) == LINDENSCOOP_UNKNOWN_FORM);
        CHECK(lindenscoop_start(frames[i], &listener) == LINDENSCOOP_UNKNOWN_FORM);
        CHECK(lindenscoop_mark(frames[i], frame, sizeof frame, out, sizeof out) == LINDENSCOOP_UNKNOWN_FORM);
    }
}

static void check_day(uint32_t year, uint32_t month, uint32_t day, uint32_t expected)
{
    uint32_t days = 77, number = 77;
    CHECK(lindenscoop_days_since_1980(year, month, day, &days) == LINDENSCOOP_OK && days == expected);
    CHECK(lindenscoop_days_since_1980_raw(year % 100, month, day, &number) == LINDENSCOOP_OK && number == expected);
}

static void check_no_day(uint32_t year, uint32_t month, uint32_t day)
{
    uint32_t days = 77;
    CHECK(lindenscoop_days_since_1980(year, month, day, &days) == LINDENSCOOP_OUT_OF_RANGE && days == 0);
}

/* By two digits; those of a year with its century are none. */
static void check_no_day_raw(uint32_t yy, uint32_t month, uint32_t day)
{
    uint32_t number = 77;
    CHECK(lindenscoop_days_since_1980_raw(yy, month, day, &number) == LINDENSCOOP_OUT_OF_RANGE && number == 0);
}

static void check_days(void)
{
    static const uint32_t none[] = {0, 32, 100, 0x80000000u, 0xffffffffu};
    static const uint32_t years[] = {0, 24, 80, 99, 1900, 1979, 2080, 2099, 2100, 2400, 4000, 0x800007d0u, 0xffffffffu};
    check_day(1980, 1, 1, 0);
    check_day(1980, 2, 29, 59);
    check_day(1980, 12, 31, 365);
    check_day(1981, 1, 1, 366);
    check_day(1999, 12, 31, 7304);
    check_day(2000, 1, 1, 7305);
    check_day(2024, 2, 29, 16130);
    check_day(2079, 12, 31, 36524);
    check_no_day(1991, 2, 29);
    check_no_day(2023, 2, 29);
    check_no_day(2024, 2, 30);
    check_no_day(2079, 4, 31);
    check_no_day(2024, 13, 1);
    for (size_t i = 0; i < sizeof none / sizeof *none; i++) {
        check_no_day(2024, none[i], 1);
        check_no_day(2024, 1, none[i]);
    }
    for (size_t i = 0; i < sizeof years / sizeof *years; i++)
        check_no_day(years[i], 1, 1);
    check_no_day_raw(100, 1, 1);
    check_no_day_raw(1991, 1, 1);
    check_no_day_raw(2024, 1, 1);
    check_no_day_raw(91, 2, 29);
    check_no_day_raw(0xffffffffu, 1, 1);
}

/* The number of every date of the calendar is one more than that of the date before, and between two dates of the C library's own
   calendar, gmtime, there is none. */
static void check_every_day(void)
{
    const time_t first = 315532800; /* 1 January 1980 */
    const struct tm *next = gmtime(&first);
    uint32_t count = 0;
    for (uint32_t year = 1980; year <= 2079; year++)
        for (uint32_t month = 0; month <= 13; month++)
            for (uint32_t day = 0; day <= 32; day++) {
                bool exists = next->tm_year + 1900L == year && next->tm_mon + 1L == month && next->tm_mday + 0L == day;
                uint32_t days = 77;
                CHECK(lindenscoop_days_since_1980(year, month, day, &days) == (exists ? LINDENSCOOP_OK : LINDENSCOOP_OUT_OF_RANGE));
                CHECK(days == (exists ? count : 0u));
                if (exists) {
                    const time_t at = first + 86400L * ++count;
                    next = gmtime(&at);
                }
            }
    CHECK(next->tm_year == 180 && next->tm_mon == 0 && next->tm_mday == 1);
}

int main(void)
{
    lindenscoop_record r = record_of(absent);
    check_nothing(&r);
    check_whole();
    check_other();
    check_no_kinds();
    check_each_flag();
    check_signs();
    check_set(whole, true);
    check_set(other, false);
    check_years();
    check_no_year();
    check_nineties();
    check_stored();
    check_versions();
    check_sat();
    check_sat_refused();
    check_forms_of_states();
    check_frames();
    check_frames_refused();
    check_days();
    check_every_day();
    return told("fields");
}
