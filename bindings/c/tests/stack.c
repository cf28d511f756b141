/*
 * How much stack each exported function touches: each call runs on a stack of its own, which is painted before and looked at after.
 * Reads lines "FORM HEX" of strings on standard input; reads, writes, searches, feeds and marks each, whole and with each byte damaged,
 * tells the year and counts the days of what was read, and adds its second to a table of runs.
 * Prints a line for each function: its name and the bytes touched, return address included.
 */
#define _XOPEN_SOURCE 700
#include "lindenscoop.h"

#include <stdio.h>
#include <ucontext.h>

enum { ROOM = 1 << 13, PAINT = 0xA5 };

static unsigned char room[ROOM];
static ucontext_t here, there;

/* What a call takes and gives. Not on the painted stack. */
static uint32_t form;
static uint8_t input[4096], out[4096], state[LINDENSCOOP_LISTENER_BYTES];
static size_t length, number;
static uint32_t numbers[LINDENSCOOP_RECORD_NUMBERS], year, days;
static lindenscoop_record record;
static lindenscoop_row rows[LINDENSCOOP_ROWS];
static uint32_t used, rack;

static void call_nothing(void) {}
static void call_read(void) { lindenscoop_read_numbers(form, input, length, numbers, 29); }
static void call_write(void) { lindenscoop_write_numbers(form, numbers, 29, out, sizeof out, &number); }
static void call_search(void) { lindenscoop_search_numbers(form, input, length, 0, &number, numbers, 29); }
static void call_start(void) { lindenscoop_start_raw(form, state, sizeof state); }
static void call_feed(void) { lindenscoop_feed_numbers(state, sizeof state, input[number], numbers, 29); }
static void call_feed_all(void) { lindenscoop_feed_all_numbers(state, sizeof state, input, length, &number, numbers, 29); }
static void call_mark(void) { lindenscoop_mark_raw(form, input, length, out, sizeof out); }
static void call_full_year(void) { lindenscoop_full_year_raw(numbers[4], &year); }
static void call_days_since_1980(void) { lindenscoop_days_since_1980_raw(numbers[4], numbers[5], numbers[6], &days); }
static void call_add_second(void) { used = lindenscoop_add_rack_second_numbers(rows, LINDENSCOOP_ROWS, used, rack, record).used; }

static struct way {
    const char *name;
    void (*call)(void);
    size_t most;
} ways[] = {{"nothing", call_nothing, 0}, {"read", call_read, 0},   {"write", call_write, 0},       {"search", call_search, 0},
            {"start", call_start, 0},     {"feed", call_feed, 0},   {"feed_all", call_feed_all, 0}, {"mark", call_mark, 0},
            {"full_year", call_full_year, 0}, {"days_since_1980", call_days_since_1980, 0}, {"add_rack_second", call_add_second, 0}};
enum { NOTHING, READ, WRITE, SEARCH, START, FEED, FEED_ALL, MARK, FULL_YEAR, DAYS_SINCE_1980, ADD_SECOND, WAYS };

static void run(int which)
{
    struct way *way = &ways[which];
    size_t untouched = 0;
    memset(room, PAINT, sizeof room);
    getcontext(&there);
    there.uc_stack.ss_sp = room;
    there.uc_stack.ss_size = sizeof room;
    there.uc_link = &here;
    makecontext(&there, way->call, 0);
    swapcontext(&here, &there);
    while (untouched < sizeof room && room[untouched] == PAINT)
        untouched++;
    if (sizeof room - untouched > way->most)
        way->most = sizeof room - untouched;
}

/* Opens a row, is a repeat, and joins a run where the second has one before it in its day; for one rack, then for the other behind it */
static void run_add_second(void)
{
    memcpy(&record, numbers, sizeof record);
    used = 0;
    for (rack = 0; rack < LINDENSCOOP_RACKS; rack++) {
        lindenscoop_second *last = &rows[2 * rack + 1].run.last;
        run(ADD_SECOND);
        run(ADD_SECOND);
        if (last->second > 0)
            last->second--;
        else if (last->minute > 0)
            last->minute--, last->second = 59;
        else
            last->hour--, last->minute = last->second = 59;
        run(ADD_SECOND);
    }
}

static void run_all(void)
{
    run(NOTHING);
    run(READ);
    run(FULL_YEAR);
    run(DAYS_SINCE_1980);
    run_add_second();
    run(WRITE);
    for (form = 1; form <= 12; form++)
        run(WRITE);
}

int main(void)
{
    unsigned given;
    static char hex[2 * sizeof input + 1];
    int strings = 0;
    while (scanf("%u %8192s", &given, hex) == 2) {
        size_t damaged;
        length = strlen(hex) / 2;
        for (size_t i = 0; i < length; i++) {
            unsigned byte;
            sscanf(hex + 2 * i, "%2x", &byte);
            input[i] = (uint8_t)byte;
        }
        /* damaged == length: not damaged */
        for (damaged = 0; damaged <= length; damaged++) {
            uint8_t kept = input[damaged];
            if (damaged < length)
                input[damaged] ^= 1;
            form = given;
            run_all();
            form = given;
            run(SEARCH);
            run(MARK);
            run(START);
            run(FEED_ALL);
            run(START);
            for (number = 0; number < length; number++)
                run(FEED);
            input[damaged] = kept;
        }
        strings++;
    }
    for (int i = READ; i < WAYS; i++)
        printf("%s %zu\n", ways[i].name, ways[i].most - ways[NOTHING].most);
    return strings == 0;
}
