/*
 * The runs of heard seconds of two racks, W-206 and W-207: which second is the next of which, what is refused and in which order, that no
 * row but the one written is changed, and that no rack is told anything of the other. Compiled as C and as C++, under the sanitizers.
 */
#include <time.h>

#include "trial.h"

enum { ROWS = LINDENSCOOP_ROWS, RACKS = LINDENSCOOP_RACKS, RACK_ROWS = LINDENSCOOP_RACK_ROWS };

static const uint32_t most_counted = 4000000000u;

/* The second of a text as 24-02-29 23:59:60; the numbers are any of two digits. */
static lindenscoop_second second_of(const char *text)
{
    unsigned n[6] = {0, 0, 0, 0, 0, 0};
    lindenscoop_second s;
    CHECK(sscanf(text, "%2u-%2u-%2u %2u:%2u:%2u", &n[0], &n[1], &n[2], &n[3], &n[4], &n[5]) == 6);
    s.yy = n[0], s.month = n[1], s.day = n[2], s.hour = n[3], s.minute = n[4], s.second = n[5];
    return s;
}

/* A record with this second and no other field. */
static lindenscoop_record record_at(lindenscoop_second s)
{
    lindenscoop_record r;
    memset(&r, 0, sizeof r);
    r.date = LINDENSCOOP_FULL_DATE;
    r.yy = s.yy, r.month = s.month, r.day = s.day;
    r.hour = s.hour, r.minute = s.minute, r.second = s.second;
    return r;
}

static lindenscoop_run run_of(lindenscoop_second first, lindenscoop_second last, uint32_t count)
{
    lindenscoop_run run;
    run.first = first, run.last = last, run.count = count;
    return run;
}

static lindenscoop_row row_of(uint32_t rack, lindenscoop_second first, lindenscoop_second last, uint32_t count)
{
    lindenscoop_row row;
    row.rack = rack, row.run = run_of(first, last, count);
    return row;
}

static bool same_run(lindenscoop_run one, lindenscoop_run other)
{
    return memcmp(&one, &other, sizeof one) == 0;
}

static bool same_runs(const lindenscoop_runs *one, const lindenscoop_runs *other)
{
    return memcmp(one, other, sizeof *one) == 0;
}

/* In which order the racks opened their rows, 32 each: by turns, one after the other, or three at a time. */
enum { LAYOUTS = 4 };

static uint32_t rack_at(uint32_t layout, uint32_t row)
{
    switch (layout) {
    case 0:
        return row % 2;
    case 1:
        return row < RACK_ROWS ? 0 : 1;
    case 2:
        return row < RACK_ROWS ? 1 : 0;
    default:
        return (row + 1) / 3 % 2;
    }
}

/* A table with that many rows in use; each row is 12:00:00 to 12:00:07 of a minute of its own, those not in use too. */
static lindenscoop_runs table_of(uint32_t layout, uint32_t used)
{
    lindenscoop_runs runs;
    runs.used = used;
    for (uint32_t i = 0; i < ROWS; i++) {
        runs.rows[i] = row_of(rack_at(layout, i), second_of("24-02-29 12:00:00"), second_of("24-02-29 12:00:07"), 8 + i);
        runs.rows[i].run.first.minute = runs.rows[i].run.last.minute = i % 60;
    }
    return runs;
}

static uint32_t rows_of(const lindenscoop_runs *runs, uint32_t rack)
{
    uint32_t count = 0;
    for (uint32_t row = 0; row < runs->used; row++)
        count += runs->rows[row].rack == rack;
    return count;
}

/* The run of a rack that was opened last; null where it has none. */
static lindenscoop_run *newest_of(lindenscoop_runs *runs, uint32_t rack)
{
    for (uint32_t row = runs->used; row-- > 0;)
        if (runs->rows[row].rack == rack)
            return &runs->rows[row].run;
    return NULL;
}

/* Refused, and nothing is changed. */
static void check_refused(const lindenscoop_runs *table, uint32_t rack, const lindenscoop_record *r, uint32_t answer)
{
    lindenscoop_runs runs = *table;
    CHECK(lindenscoop_add_second(&runs, rack, r) == answer);
    CHECK(same_runs(&runs, table));
}

/* No table of either rack, whatever the record; and first of all no rack. */
static void check_bad(const lindenscoop_runs *table, const lindenscoop_record *r)
{
    lindenscoop_record empty;
    memset(&empty, 0, sizeof empty);
    for (uint32_t rack = 0; rack < RACKS; rack++) {
        check_refused(table, rack, r, LINDENSCOOP_BAD_TABLE);
        check_refused(table, rack, &empty, LINDENSCOOP_BAD_TABLE);
    }
    check_refused(table, RACKS, r, LINDENSCOOP_NO_RACK);
    check_refused(table, 0xffffffffu, &empty, LINDENSCOOP_NO_RACK);
}

/* Added, and the table is as expected afterwards. */
static void check_added(const lindenscoop_runs *table, uint32_t rack, lindenscoop_second s, const lindenscoop_runs *expected)
{
    lindenscoop_runs runs = *table;
    const lindenscoop_record r = record_at(s);
    CHECK(lindenscoop_add_second(&runs, rack, &r) == LINDENSCOOP_OK);
    CHECK(same_runs(&runs, expected));
}

/* One second behind another one of the same rack: joined to its run, or a run of its own. Between them the other rack heard the first of
   them, the second of them, or nothing. */
static void check_behind_in(uint32_t rack, const lindenscoop_second *between, lindenscoop_second before, lindenscoop_second after, bool joins)
{
    lindenscoop_runs runs, expected;
    memset(&runs, 0xa5, sizeof runs);
    lindenscoop_runs_clear(&runs);
    expected = runs;
    expected.rows[expected.used++] = row_of(rack, before, before, 1);
    check_added(&runs, rack, before, &expected);
    runs = expected;
    if (between) {
        expected.rows[expected.used++] = row_of(1 - rack, *between, *between, 1);
        check_added(&runs, 1 - rack, *between, &expected);
        runs = expected;
    }
    if (joins)
        expected.rows[0].run = run_of(before, after, 2);
    else
        expected.rows[expected.used++] = row_of(rack, after, after, 1);
    check_added(&runs, rack, after, &expected);
}

static void check_behind(lindenscoop_second before, lindenscoop_second after, bool joins)
{
    for (uint32_t rack = 0; rack < RACKS; rack++) {
        check_behind_in(rack, NULL, before, after, joins);
        check_behind_in(rack, &before, before, after, joins);
        check_behind_in(rack, &after, before, after, joins);
    }
}

static void check_next(void)
{
    static const char *const pairs[][2] = {
        {"24-01-01 12:00:00", "24-01-01 12:00:01"}, {"24-01-01 12:00:58", "24-01-01 12:00:59"}, {"24-01-01 12:00:59", "24-01-01 12:00:60"},
        {"24-01-01 12:00:59", "24-01-01 12:01:00"}, {"24-01-01 12:00:60", "24-01-01 12:01:00"}, {"24-01-01 12:59:59", "24-01-01 13:00:00"},
        {"24-01-01 12:59:60", "24-01-01 13:00:00"}, {"24-02-28 23:59:59", "24-02-29 00:00:00"}, {"24-02-29 23:59:60", "24-03-01 00:00:00"},
        {"23-02-28 23:59:59", "23-03-01 00:00:00"}, {"00-02-28 23:59:59", "00-02-29 00:00:00"}, {"91-04-30 23:59:59", "91-05-01 00:00:00"},
        {"16-12-31 23:59:60", "17-01-01 00:00:00"}, {"99-12-31 23:59:59", "00-01-01 00:00:00"}, {"79-12-31 23:59:59", "79-12-31 23:59:60"}};
    for (size_t i = 0; i < sizeof pairs / sizeof *pairs; i++)
        check_behind(second_of(pairs[i][0]), second_of(pairs[i][1]), true);
}

/* A repeat, a clock set back, a second left out, and what is next by its digits alone. */
static void check_not_next(void)
{
    static const char *const pairs[][2] = {
        {"24-01-01 12:00:00", "24-01-01 12:00:00"}, {"24-01-01 12:00:60", "24-01-01 12:00:60"}, {"24-01-01 12:00:01", "24-01-01 12:00:00"},
        {"24-01-01 12:00:00", "24-01-01 12:00:02"}, {"24-01-01 12:00:58", "24-01-01 12:00:60"}, {"24-01-01 12:00:58", "24-01-01 12:01:00"},
        {"24-01-01 12:00:59", "24-01-01 12:00:00"}, {"24-01-01 12:00:59", "24-01-01 12:01:01"}, {"24-01-01 12:00:59", "24-01-01 12:01:60"},
        {"24-01-01 12:00:59", "24-01-01 12:02:00"}, {"24-01-01 12:00:60", "24-01-01 12:01:01"}, {"24-01-01 12:59:59", "24-01-01 12:00:00"},
        {"24-01-01 23:59:59", "24-01-01 00:00:00"}, {"24-01-01 23:59:59", "24-01-03 00:00:00"}, {"24-01-01 12:00:00", "24-01-02 12:00:01"},
        {"24-01-01 12:00:00", "24-02-01 12:00:01"}, {"24-01-01 12:00:00", "25-01-01 12:00:01"}, {"24-02-28 23:59:59", "24-03-01 00:00:00"},
        {"24-01-31 23:59:59", "24-01-01 00:00:00"}, {"24-12-31 23:59:59", "24-01-01 00:00:00"}, {"79-12-31 23:59:59", "80-01-01 00:00:00"},
        {"79-12-31 23:59:60", "80-01-01 00:00:00"}, {"79-12-31 23:59:60", "79-12-31 23:59:00"}};
    for (size_t i = 0; i < sizeof pairs / sizeof *pairs; i++)
        check_behind(second_of(pairs[i][0]), second_of(pairs[i][1]), false);
}

/* The second of a count by the calendar of the C library, which has no leap seconds. */
static lindenscoop_second second_at(time_t count)
{
    char text[sizeof "24-02-29 23:59:60"] = "";
    const struct tm *moment = gmtime(&count);
    CHECK(moment != NULL && strftime(text, sizeof text, "%y-%m-%d %H:%M:%S", moment) == sizeof text - 1);
    return second_of(text);
}

/* Each day of 1980 to 2079: the first second of the day behind it follows its last one, and the one behind that does not. */
static void check_every_day(void)
{
    const time_t begin = 315532800; /* 1 January 1980 */
    for (time_t end = begin + 86400; end < begin + 36525 * 86400L; end += 86400) {
        const uint32_t rack = end / 86400 % 2 ? 1 : 0;
        check_behind_in(rack, NULL, second_at(end - 1), second_at(end), true);
        check_behind_in(1 - rack, NULL, second_at(end - 1), second_at(end + 1), false);
    }
    check_behind(second_at(begin + 36525 * 86400L - 1), second_at(begin), false);
}

/* Every second of two days over the end of a year is one run of each rack, an hour apart. */
static void check_long_run(void)
{
    const time_t begin = 1703980800; /* 31 December 2023 */
    lindenscoop_runs runs;
    lindenscoop_runs_clear(&runs);
    for (time_t moment = begin; moment < begin + 2 * 86400; moment++) {
        const lindenscoop_record r = record_at(second_at(moment)), later = record_at(second_at(moment + 3600));
        CHECK(lindenscoop_add_second(&runs, 1, &r) == LINDENSCOOP_OK && lindenscoop_add_second(&runs, 0, &later) == LINDENSCOOP_OK && runs.used == 2);
    }
    CHECK(runs.rows[0].rack == 1 && same_run(runs.rows[0].run, run_of(second_of("23-12-31 00:00:00"), second_of("24-01-01 23:59:59"), 2 * 86400)));
    CHECK(runs.rows[1].rack == 0 && same_run(runs.rows[1].run, run_of(second_of("23-12-31 01:00:00"), second_of("24-01-02 00:59:59"), 2 * 86400)));
}

/* Whichever number is in use, one row is changed: the newest of the rack, or the one behind all. */
static void check_each_number(void)
{
    const lindenscoop_second other = second_of("91-06-30 23:59:60");
    const lindenscoop_record opening = record_at(other);
    for (uint32_t layout = 0; layout < LAYOUTS; layout++)
        for (uint32_t used = 0; used <= ROWS; used++)
            for (uint32_t rack = 0; rack < RACKS; rack++) {
                const lindenscoop_runs runs = table_of(layout, used);
                lindenscoop_runs expected = runs;
                lindenscoop_run *newest = newest_of(&expected, rack);
                if (newest) {
                    newest->last.second = 8;
                    newest->count++;
                    check_added(&runs, rack, newest->last, &expected);
                }
                if (rows_of(&runs, rack) == RACK_ROWS) {
                    check_refused(&runs, rack, &opening, LINDENSCOOP_NO_ROW);
                    continue;
                }
                expected = runs;
                expected.rows[expected.used++] = row_of(rack, other, other, 1);
                check_added(&runs, rack, other, &expected);
            }
}

/* What the other rack's newest run would be joined by opens a row of this rack. */
static void check_own_newest(void)
{
    for (uint32_t layout = 0; layout < LAYOUTS; layout++)
        for (uint32_t used = 1; used < ROWS; used++)
            for (uint32_t rack = 0; rack < RACKS; rack++) {
                lindenscoop_runs runs = table_of(layout, used), expected = runs;
                const lindenscoop_run *others = newest_of(&runs, 1 - rack);
                if (!others || rows_of(&runs, rack) == RACK_ROWS)
                    continue;
                lindenscoop_second s = others->last;
                s.second++;
                expected.rows[expected.used++] = row_of(rack, s, s, 1);
                check_added(&runs, rack, s, &expected);
            }
}

/* Tables of another length; before the record is looked at, and behind the rack. */
static void check_length(uint32_t rack, const lindenscoop_record *joining)
{
    static const size_t lengths[] = {0, 1, 8, 63, 65, 2 * ROWS};
    const lindenscoop_runs whole = table_of(0, 8);
    lindenscoop_record empty;
    lindenscoop_row rows[2 * ROWS], kept[2 * ROWS];
    memset(&empty, 0, sizeof empty);
    memcpy(rows, whole.rows, sizeof whole.rows);
    memcpy(rows + ROWS, whole.rows, sizeof whole.rows);
    memcpy(kept, rows, sizeof kept);
    for (size_t i = 0; i < sizeof lengths / sizeof *lengths; i++)
        for (uint32_t used = 0; used <= 8; used += 8) {
            lindenscoop_added refused = lindenscoop_add_rack_second_numbers(rows, lengths[i], used, rack, used ? *joining : empty);
            CHECK(refused.answer == LINDENSCOOP_BAD_TABLE && refused.used == used && memcmp(rows, kept, sizeof rows) == 0);
            refused = lindenscoop_add_rack_second_numbers(rows, lengths[i], used, RACKS + rack, used ? *joining : empty);
            CHECK(refused.answer == LINDENSCOOP_NO_RACK && refused.used == used && memcmp(rows, kept, sizeof rows) == 0);
        }
    /* with rows behind the table that could be in use */
    for (uint32_t used = ROWS + 1; used <= ROWS + 8; used++) {
        const lindenscoop_added refused = lindenscoop_add_rack_second_numbers(rows, ROWS, used, rack, *joining);
        CHECK(refused.answer == LINDENSCOOP_BAD_TABLE && refused.used == used && memcmp(rows, kept, sizeof rows) == 0);
    }
    const lindenscoop_added added = lindenscoop_add_rack_second_numbers(rows, ROWS, 8, rack, *joining);
    CHECK(added.answer == LINDENSCOOP_OK && added.used == 8 && rows[6 + rack].run.count == kept[6 + rack].run.count + 1);
}

/* Numbers in use that no table has. */
static void check_no_table(void)
{
    static const uint32_t over[] = {65, 66, 128, 0x10000, 0xffffffffu};
    const lindenscoop_record joining[RACKS] = {record_at(second_of("24-02-29 12:06:08")), record_at(second_of("24-02-29 12:07:08"))};
    for (uint32_t rack = 0; rack < RACKS; rack++) {
        check_length(rack, &joining[rack]);
        for (size_t i = 0; i < sizeof over / sizeof *over; i++) {
            const lindenscoop_runs runs = table_of(rack, over[i]);
            check_bad(&runs, &joining[rack]);
        }
    }
}

/* Numbers that no rack has, handed in or in a row. */
static const uint32_t no_racks[] = {2, 3, 32, 64, 0x80000000u, 0xffffffffu};
enum { NO_RACKS = sizeof no_racks / sizeof *no_racks };

/* First of all: where the record would be added, where no row is left, and where it tells no second. */
static void check_no_rack(void)
{
    const lindenscoop_record opening = record_at(second_of("91-06-30 23:59:60"));
    lindenscoop_record empty;
    memset(&empty, 0, sizeof empty);
    for (size_t i = 0; i < NO_RACKS; i++)
        for (uint32_t used = 0; used <= ROWS; used++) {
            lindenscoop_runs runs = table_of(used % LAYOUTS, used);
            check_refused(&runs, no_racks[i], &opening, LINDENSCOOP_NO_RACK);
            check_refused(&runs, no_racks[i], &empty, LINDENSCOOP_NO_RACK);
            /* also where rows are of that rack */
            for (uint32_t row = 0; row < ROWS; row++)
                runs.rows[row].rack = no_racks[i];
            check_refused(&runs, no_racks[i], &opening, LINDENSCOOP_NO_RACK);
        }
}

/* A row in use of a rack that there is not, the first, the last or any; one that is not in use is not looked at. */
static void check_racks_of_rows(void)
{
    const lindenscoop_second other = second_of("91-06-30 23:59:60");
    const lindenscoop_record opening = record_at(other);
    for (size_t i = 0; i < NO_RACKS; i++)
        for (uint32_t used = 0; used < ROWS; used += 7)
            for (uint32_t row = 0; row < ROWS; row++) {
                lindenscoop_runs runs = table_of(0, used);
                runs.rows[row].rack = no_racks[i];
                if (row < used) {
                    check_bad(&runs, &opening);
                    continue;
                }
                lindenscoop_runs expected = runs;
                expected.rows[expected.used++] = row_of(row % 2, other, other, 1);
                check_added(&runs, row % 2, other, &expected);
            }
}

/* 32 rows of a rack are taken, and more are not, whichever rack the record is of; those behind the rows in use do not count. */
static void check_rows_of_a_rack(void)
{
    const lindenscoop_second other = second_of("91-06-30 23:59:60");
    const lindenscoop_record opening = record_at(other);
    for (uint32_t rack = 0; rack < RACKS; rack++)
        for (uint32_t used = 0; used <= ROWS; used++) {
            lindenscoop_runs runs = table_of(0, used);
            for (uint32_t row = 0; row < ROWS; row++)
                runs.rows[row].rack = rack;
            if (used > RACK_ROWS) {
                check_bad(&runs, &opening);
                continue;
            }
            lindenscoop_runs expected = runs;
            expected.rows[expected.used++] = row_of(1 - rack, other, other, 1);
            check_added(&runs, 1 - rack, other, &expected);
            expected.rows[used].rack = rack;
            if (used < RACK_ROWS)
                check_added(&runs, rack, other, &expected);
            else
                check_refused(&runs, rack, &opening, LINDENSCOOP_NO_ROW);
        }
}

/* Seconds that the calendar does not have: by a two-digit number, or by one of the six numbers replaced. */
static const char *const impossible[] = {"24-00-01 12:00:07", "24-13-01 12:00:07", "24-02-00 12:00:07", "24-02-30 12:00:07", "23-02-29 12:00:07",
                                         "24-04-31 12:00:07", "24-01-32 12:00:07", "24-02-29 24:00:07", "24-02-29 12:60:07", "24-02-29 12:00:61"};
enum { TEXTS = sizeof impossible / sizeof *impossible, IMPOSSIBLE = TEXTS + 6 * 3 };

static lindenscoop_second impossible_at(size_t place)
{
    static const uint32_t wide[] = {100, 1991, 0xffffffffu};
    uint32_t numbers[6];
    lindenscoop_second s = second_of("24-02-29 12:00:07");
    if (place < TEXTS)
        return second_of(impossible[place]);
    memcpy(numbers, &s, sizeof s);
    numbers[(place - TEXTS) / 3] = wide[(place - TEXTS) % 3];
    memcpy(&s, numbers, sizeof s);
    return s;
}

/* Of either rack's newest row the last second is looked at, whichever rack the record is of. */
static void check_impossible(void)
{
    const lindenscoop_record next = record_at(second_of("24-02-29 12:00:08"));
    for (uint32_t i = 0; i < IMPOSSIBLE; i++)
        for (uint32_t used = 1; used <= ROWS; used += 9)
            for (uint32_t rack = 0; rack < RACKS; rack++) {
                const lindenscoop_record r = record_at(impossible_at(i));
                lindenscoop_runs runs = table_of(i % LAYOUTS, used);
                lindenscoop_run *newest = newest_of(&runs, rack);
                if (!newest)
                    continue;
                newest->last = impossible_at(i);
                check_bad(&runs, &next);
                check_bad(&runs, &r);
            }
}

/* The first seconds are not looked at, nor is any run but the two newest ones: not those opened before, not those behind the rows in use. */
static void check_not_looked_at(void)
{
    const lindenscoop_second good = second_of("24-02-29 12:00:07"), next = second_of("24-02-29 12:00:08");
    for (uint32_t i = 0; i < IMPOSSIBLE; i++)
        for (uint32_t used = 1; used <= ROWS; used += 9)
            for (uint32_t rack = 0; rack < RACKS; rack++) {
                const lindenscoop_second s = impossible_at(i);
                const lindenscoop_record r = record_at(s);
                lindenscoop_runs runs = table_of(i % LAYOUTS, used);
                for (uint32_t row = 0; row < ROWS; row++)
                    runs.rows[row].run = run_of(s, s, 0xffffffffu);
                for (uint32_t each = 0; each < RACKS; each++)
                    if (newest_of(&runs, each))
                        *newest_of(&runs, each) = run_of(s, good, 8);
                check_refused(&runs, rack, &r, LINDENSCOOP_NO_SECOND);
                lindenscoop_runs expected = runs;
                if (newest_of(&runs, rack))
                    *newest_of(&expected, rack) = run_of(s, next, 9);
                else
                    expected.rows[expected.used++] = row_of(rack, next, next, 1);
                check_added(&runs, rack, next, &expected);
            }
}

/* The count of either rack's newest row is looked at, whichever rack the record is of. */
static void check_counts(void)
{
    const lindenscoop_second next = second_of("24-02-29 12:00:08"), behind = second_of("24-02-29 12:00:09");
    const lindenscoop_record apart = record_at(second_of("24-02-29 13:00:00")), later = record_at(behind);
    for (uint32_t rack = 0; rack < RACKS; rack++) {
        const uint32_t own = rack; /* by layout 0 the row of the rack, of two in use */
        lindenscoop_runs runs = table_of(0, 2), expected;
        runs.rows[1].run.last.minute = 0;
        runs.rows[own].run.count = most_counted;
        expected = runs;
        expected.rows[own].run.last = next;
        expected.rows[own].run.count++;
        check_added(&runs, rack, next, &expected);
        check_bad(&expected, &later);
        check_bad(&expected, &apart);
        expected.rows[own].run.count = 0xffffffffu;
        check_bad(&expected, &later);
        expected.rows[own].run.count = 0;
        runs = expected;
        expected.rows[own].run.last = behind;
        expected.rows[own].run.count = 1;
        check_added(&runs, rack, behind, &expected);
    }
}

/* Records that tell no second, each also where no row is left. */
static void check_no_second(void)
{
    enum { WRONG = 9 };
    const lindenscoop_record good = record_at(second_of("24-02-29 12:00:08"));
    lindenscoop_record wrong[WRONG];
    for (size_t i = 0; i < WRONG; i++)
        wrong[i] = good;
    wrong[0].date = LINDENSCOOP_ABSENT;
    lindenscoop_set_day_of_year(&wrong[1], 60);
    wrong[2].date = 3;
    wrong[3].utc = wrong[3].summer = LINDENSCOOP_YES;
    lindenscoop_set_offset(&wrong[4], 841);
    lindenscoop_set_channel(&wrong[5], 2);
    wrong[6].position = 3;
    wrong[7].lsp = 3;
    wrong[8].fraction = 4;
    for (uint32_t used = 0; used <= ROWS; used++)
        for (uint32_t rack = 0; rack < RACKS; rack++) {
            const lindenscoop_runs runs = table_of(used % LAYOUTS, used);
            for (size_t i = 0; i < WRONG; i++)
                check_refused(&runs, rack, &wrong[i], LINDENSCOOP_NO_SECOND);
            for (size_t i = 0; i < IMPOSSIBLE; i++) {
                const lindenscoop_record r = record_at(impossible_at(i));
                check_refused(&runs, rack, &r, LINDENSCOOP_NO_SECOND);
            }
        }
}

/* The fields beside date and time, each of them there, make no difference. */
static void check_other_fields(void)
{
    lindenscoop_record r = record_of("date=24-02-29\ntime=23:59:60\nfraction=0000431\nchannel=1\nsync=no\nfix=yes\nutc=no\nsummer=yes\nchange=no\nleap=yes\noffset=-03:30\nposition=-047.3500 +008.0625 0431\ndsp=no\nlsp=yes\n");
    lindenscoop_runs runs = table_of(0, 1);
    runs.rows[0].run.last = second_of("24-02-29 23:59:59");
    r.day_of_year = 0xffffffffu; /* not looked at beside a full date */
    CHECK(lindenscoop_add_second(&runs, 0, &r) == LINDENSCOOP_OK && runs.used == 1);
    CHECK(same_run(runs.rows[0].run, run_of(second_of("24-02-29 12:00:00"), second_of("24-02-29 23:59:60"), 9)));
}

/* From an empty table on each rack opens 32 rows, in any order, and then none; its newest run goes on. */
static void check_full(void)
{
    for (uint32_t layout = 0; layout < LAYOUTS; layout++) {
        lindenscoop_runs runs, expected = table_of(layout, ROWS);
        lindenscoop_runs_clear(&runs);
        for (uint32_t row = 0; row < ROWS; row++) {
            expected.rows[row].run = run_of(expected.rows[row].run.first, expected.rows[row].run.first, 1);
            const lindenscoop_record r = record_at(expected.rows[row].run.first);
            CHECK(lindenscoop_add_second(&runs, expected.rows[row].rack, &r) == LINDENSCOOP_OK && runs.used == row + 1);
            for (uint32_t rack = 0; rack < RACKS; rack++)
                if (rows_of(&runs, rack) == RACK_ROWS)
                    check_refused(&runs, rack, &r, LINDENSCOOP_NO_ROW);
        }
        CHECK(same_runs(&runs, &expected));
        for (uint32_t rack = 0; rack < RACKS; rack++) {
            lindenscoop_run *newest = newest_of(&expected, rack);
            newest->last.second = 1, newest->count = 2;
            check_added(&runs, rack, newest->last, &expected);
            runs = expected;
        }
    }
}

/* 1,440 runs of rack 0, one a minute, taken out whenever it has no row left; rack 1 hears every second of that time in one run. */
static void check_taking(void)
{
    lindenscoop_runs runs;
    uint32_t taken = 0, times = 0;
    lindenscoop_second s = second_of("24-02-29 00:00:07"), steady = s;
    lindenscoop_runs_clear(&runs);
    for (uint32_t i = 0; i < 1440; i++) {
        s.hour = i / 60, s.minute = i % 60;
        steady.minute = i / 60, steady.second = i % 60;
        const lindenscoop_record r = record_at(s), other = record_at(steady);
        if (i % RACK_ROWS == 0 && i > 0) {
            check_refused(&runs, 0, &r, LINDENSCOOP_NO_ROW);
            for (uint32_t row = 0; row < runs.used; row++)
                if (runs.rows[row].rack == 0) {
                    CHECK(runs.rows[row].run.first.hour * 60 + runs.rows[row].run.first.minute == taken && runs.rows[row].run.count == 1);
                    taken++;
                }
            lindenscoop_runs_clear_rack(&runs, 0);
            CHECK(runs.used == 1 && runs.rows[0].rack == 1 && runs.rows[0].run.count == i);
            times++;
        }
        CHECK(lindenscoop_add_second(&runs, 0, &r) == LINDENSCOOP_OK && lindenscoop_add_second(&runs, 1, &other) == LINDENSCOOP_OK);
        const lindenscoop_run *newest = newest_of(&runs, 1);
        CHECK(runs.used == i % RACK_ROWS + 2 && newest && newest->count == i + 1);
    }
    CHECK(times == 44 && taken + rows_of(&runs, 0) == 1440);
}

/* The rows of one rack go, those of the other move up in their order, and what stands behind the rows in use stays. */
static void check_clearing(void)
{
    static const uint32_t over[] = {65, 66, 0x80000000u, 0xffffffffu};
    for (uint32_t layout = 0; layout < LAYOUTS; layout++)
        for (uint32_t used = 0; used <= ROWS; used++)
            for (uint32_t rack = 0; rack < RACKS; rack++) {
                const lindenscoop_runs before = table_of(layout, used);
                lindenscoop_runs runs = before;
                uint32_t kept = 0;
                lindenscoop_runs_clear_rack(&runs, rack);
                for (uint32_t row = 0; row < used; row++)
                    if (before.rows[row].rack != rack) {
                        CHECK(memcmp(&runs.rows[kept], &before.rows[row], sizeof before.rows[row]) == 0);
                        kept++;
                    }
                CHECK(runs.used == kept && memcmp(&runs.rows[used], &before.rows[used], (ROWS - used) * sizeof before.rows[0]) == 0);
                runs = before;
                lindenscoop_runs_clear_rack(&runs, RACKS);
                CHECK(same_runs(&runs, &before));
                lindenscoop_runs_clear(&runs);
                CHECK(runs.used == 0);
            }
    for (size_t i = 0; i < sizeof over / sizeof *over; i++)
        for (uint32_t rack = 0; rack <= RACKS; rack++) {
            const lindenscoop_runs before = table_of(0, over[i]);
            lindenscoop_runs runs = before;
            lindenscoop_runs_clear_rack(&runs, rack);
            CHECK(same_runs(&runs, &before));
        }
}

/* Numbers without a pattern, the same in every run of the test. */
static uint32_t draw(uint32_t below)
{
    static uint32_t drawn = 207;
    drawn ^= drawn << 13;
    drawn ^= drawn >> 17;
    drawn ^= drawn << 5;
    return (drawn >> 8) % below;
}

/* What one rack is told, and its own runs, in order. */
typedef struct lane {
    uint32_t answers[200], opened[200], used;
    lindenscoop_run runs[RACK_ROWS];
} lane;

/* A rack's records, with so many of the other one before each, at most, which mostly go on; not all of these tell a second. */
static lane lane_of(uint32_t rack, const lindenscoop_record *records, uint32_t most)
{
    lane told;
    lindenscoop_runs runs;
    lindenscoop_second s = second_of("24-02-29 12:00:00");
    memset(&told, 0, sizeof told);
    lindenscoop_runs_clear(&runs);
    for (size_t i = 0; i < sizeof told.answers / sizeof *told.answers; i++) {
        for (uint32_t others = draw(most + 1); others > 0; others--) {
            s.second = draw(8) ? s.second + 1 : draw(62);
            const lindenscoop_record other = record_at(s);
            lindenscoop_add_second(&runs, 1 - rack, draw(5) ? &other : &records[i]);
        }
        const uint32_t used = runs.used;
        told.answers[i] = lindenscoop_add_second(&runs, rack, &records[i]);
        told.opened[i] = runs.used - used;
    }
    for (uint32_t row = 0; row < runs.used; row++)
        if (runs.rows[row].rack == rack && told.used < RACK_ROWS)
            told.runs[told.used++] = runs.rows[row].run;
    CHECK(told.used == rows_of(&runs, rack));
    return told;
}

/* What one rack is told, and the list of its runs, are the same with any records of the other rack as with none. */
static void check_apart(void)
{
    uint32_t full = 0;
    for (uint32_t time = 0; time < 200; time++) {
        lindenscoop_record records[200];
        lindenscoop_second s = second_of("24-02-29 12:00:00");
        const uint32_t steady = 2 + draw(20);
        for (size_t i = 0; i < sizeof records / sizeof *records; i++) {
            s.second = draw(steady) && s.second < 60 ? s.second + 1 : draw(62);
            records[i] = record_at(s);
            if (!draw(20))
                lindenscoop_set_day_of_year(&records[i], 60);
        }
        const lane alone = lane_of(time % 2, records, 0);
        full += alone.used == RACK_ROWS;
        for (uint32_t most = 1; most < 9; most += 3) {
            const lane beside = lane_of(time % 2, records, most);
            CHECK(memcmp(&alone, &beside, sizeof alone) == 0);
        }
        const lane swapped = lane_of(1 - time % 2, records, 2);
        CHECK(memcmp(&alone, &swapped, sizeof alone) == 0);
    }
    CHECK(20 < full && full < 180);
}

static void check_dates(void)
{
    uint32_t year = 77, month = 77, day = 77;
    lindenscoop_second s = second_of("91-06-30 23:59:60");
    CHECK(lindenscoop_second_date(&s, &year, &month, &day) && year == 1991 && month == 6 && day == 30);
    s.yy = 100;
    year = month = day = 77;
    CHECK(!lindenscoop_second_date(&s, &year, &month, &day) && year == 77 && month == 77 && day == 77);
}

int main(void)
{
    check_next();
    check_not_next();
    check_every_day();
    check_long_run();
    check_each_number();
    check_own_newest();
    check_no_table();
    check_no_rack();
    check_racks_of_rows();
    check_rows_of_a_rack();
    check_impossible();
    check_not_looked_at();
    check_counts();
    check_no_second();
    check_other_fields();
    check_full();
    check_taking();
    check_clearing();
    check_apart();
    check_dates();
    return told("runs");
}
