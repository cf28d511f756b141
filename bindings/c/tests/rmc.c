/*
 * RMC strings, form 12: one of a real clock, and others that were worked out by hand from document 02, W-204, and manual 002. Compiled as
 * C and as C++, under the sanitizers.
 */
#include "trial.h"

enum { LENGTH = 65 };

/* A string and what it tells. Latitude and longitude are hundredths of a minute. */
static const struct meaning {
    const char *string;
    uint32_t time[4], date[3];
    bool sync;
    int32_t latitude, longitude;
} known[] = {{"$GPRMC,220952.00,A,4742.21,N,01200.75,E,0.0,0.0,181223,0.0,E*5A\r\n", {22, 9, 52, 0}, {2023, 12, 18}, true, 286221, 72075},
             {"$GPRMC,120000.00,A,4721.00,N,00803.75,E,0.0,0.0,010124,0.0,E*54\r\n", {12, 0, 0, 0}, {2024, 1, 1}, true, 284100, 48375},
             {"$GPRMC,235960.99,V,0000.01,S,00000.01,W,0.0,0.0,290224,0.0,E*44\r\n", {23, 59, 60, 99}, {2024, 2, 29}, false, -1, -1},
             {"$GPRMC,000000.00,V,9000.00,S,18000.00,W,0.0,0.0,311279,0.0,E*4F\r\n", {0, 0, 0, 0}, {2079, 12, 31}, false, -540000, -1080000},
             {"$GPRMC,000000.00,A,0000.00,N,00000.00,E,0.0,0.0,010100,0.0,E*58\r\n", {0, 0, 0, 0}, {2000, 1, 1}, true, 0, 0}};

enum { KNOWN = sizeof known / sizeof *known };

/* The record of a string, made by the functions that set fields. */
static lindenscoop_record record_meant(const struct meaning *t)
{
    lindenscoop_record r;
    memset(&r, 0, sizeof r);
    r.hour = t->time[0], r.minute = t->time[1], r.second = t->time[2];
    lindenscoop_set_date(&r, t->date[0], t->date[1], t->date[2]);
    lindenscoop_set_hundredths(&r, t->time[3]);
    r.sync = lindenscoop_flag(t->sync);
    lindenscoop_set_position_minutes(&r, t->latitude, t->longitude);
    return r;
}

/* Each is read, written again as the same bytes, searched for, heard and marked. */
static void check_known(void)
{
    lindenscoop_listener listener;
    CHECK(lindenscoop_start(LINDENSCOOP_RMC, &listener) == LINDENSCOOP_OK);
    CHECK(listener.bytes[LINDENSCOOP_LISTENER_BYTES - 1] == (LINDENSCOOP_STATE_VERSION << 4 | LINDENSCOOP_RMC));
    for (size_t i = 0; i < KNOWN; i++) {
        const char *string = known[i].string;
        const lindenscoop_record wanted = record_meant(&known[i]);
        lindenscoop_record r;
        char out[LENGTH];
        uint8_t marks[LENGTH], before[LENGTH - 1] = {0};
        size_t n = 0;
        CHECK(strlen(string) == LENGTH && lindenscoop_read(LINDENSCOOP_RMC, string, LENGTH, &r) == LINDENSCOOP_OK);
        CHECK(memcmp(&r, &wanted, sizeof r) == 0);
        CHECK(lindenscoop_write(LINDENSCOOP_RMC, &wanted, out, LENGTH, &n) == LINDENSCOOP_OK && n == LENGTH && memcmp(out, string, LENGTH) == 0);
        CHECK(lindenscoop_write(LINDENSCOOP_RMC, &wanted, out, LENGTH - 1, &n) == LINDENSCOOP_SHORT_BUFFER && n == 0);
        CHECK(lindenscoop_feed_all(&listener, string, LENGTH, &n, &r) == LINDENSCOOP_HEARD && n == LENGTH && memcmp(&r, &wanted, sizeof r) == 0);
        CHECK(lindenscoop_search(LINDENSCOOP_RMC, string, LENGTH, 0, &n, &r) == LINDENSCOOP_OK && n == 0 && memcmp(&r, &wanted, sizeof r) == 0);
        CHECK(lindenscoop_mark(LINDENSCOOP_RMC, string, LENGTH, marks, LENGTH) == LINDENSCOOP_OK);
        CHECK(marks[LENGTH - 1] == 1 && memcmp(marks, before, sizeof before) == 0);
    }
}

/* The writer asks for each field that is carried, and for no other. */
static void check_carried(void)
{
    const lindenscoop_record whole = record_meant(&known[0]);
    for (int without = 0; without < 5; without++) {
        lindenscoop_record r = whole;
        char out[LENGTH];
        size_t n = 77;
        uint32_t *const carried[] = {&r.date, &r.fraction, &r.sync, &r.position};
        if (without < 4)
            *carried[without] = LINDENSCOOP_ABSENT;
        else
            lindenscoop_set_day_of_year(&r, 1);
        CHECK(lindenscoop_write(LINDENSCOOP_RMC, &r, out, LENGTH, &n) == LINDENSCOOP_MISSING_FIELD && n == 0);
    }
}

static const struct {
    const char *string;
    uint32_t answer;
} refused[] = {
    {"$GNRMC,120000.00,A,4721.00,N,00803.75,E,0.0,0.0,010124,0.0,E*4A\r\n", 3}, /* another talker */
    {"$GPRMC,120000.00,A,4721.00,N,  803.75,E,0.0,0.0,010124,0.0,E*54\r\n", 3}, /* spaces for leading zeros */
    {"$GPRMC,120000.00,A,4721.00,n,00803.75,E,0.0,0.0,010124,0.0,E*74\r\n", 3},
    {"$GPRMC,120000.00,B,4721.00,N,00803.75,E,0.0,0.0,010124,0.0,E*57\r\n", 3},
    {"$GPRMC,120000.00,A,4721.00,N,00803.75,E,0.1,0.0,010124,0.0,E*55\r\n", 3}, /* a speed */
    {"$GPRMC,120000.00,A,4721.00,N,00803.75,E,0.0,0.0,010124,0.0,W*46\r\n", 3},
    {"$GPRMC,220952.00,A,4742.21,N,01200.75,E,0.0,0.0,181223,0.0,E*5a\r\n", 3},
    {"$GPRMC,120000.00,A,4721.00,N,00803.75,E,0.0,0.0,010124,0.0,E*55\r\n", 6},
    {"$GPRMC,120000.00,A,4721.00,N,00803.75,E,0.0,0.0,010124,0.0,E*70\r\n", 6}, /* the sum with `$` in it */
    {"$GPRMC,120000.00,A,4760.00,N,00803.75,E,0.0,0.0,010124,0.0,E*51\r\n", 4}, /* minutes of 60 */
    {"$GPRMC,120000.00,A,4721.00,N,00860.00,E,0.0,0.0,010124,0.0,E*53\r\n", 4},
    {"$GPRMC,120000.00,A,9000.01,N,00803.75,E,0.0,0.0,010124,0.0,E*5C\r\n", 4},
    {"$GPRMC,120000.00,A,9060.00,N,00803.75,E,0.0,0.0,010124,0.0,E*5B\r\n", 4},
    {"$GPRMC,120000.00,A,4721.00,N,18000.01,E,0.0,0.0,010124,0.0,E*55\r\n", 4},
    {"$GPRMC,120000.00,A,4721.00,N,18060.00,E,0.0,0.0,010124,0.0,E*52\r\n", 4},
    {"$GPRMC,240000.00,A,4721.00,N,00803.75,E,0.0,0.0,010124,0.0,E*51\r\n", 4},
    {"$GPRMC,120061.00,A,4721.00,N,00803.75,E,0.0,0.0,010124,0.0,E*53\r\n", 4},
    {"$GPRMC,120000.00,A,4721.00,N,00803.75,E,0.0,0.0,300224,0.0,E*55\r\n", 4}, /* no such date */
    {"$GPRMC,120000.00,A,0000.00,S,00803.75,E,0.0,0.0,010124,0.0,E*49\r\n", 5}, /* S on a zero */
    {"$GPRMC,120000.00,A,4721.00,N,00000.00,W,0.0,0.0,010124,0.0,E*4F\r\n", 5},
    {"$GPRMC,120000.00,A,4721.00,N,00803.75,E,0.0,0.0,010124,0.0,E*54\n", 2},
    {"$GPRMC,220516,A,5133.82,N,00042.24,W,173.8,231.8,130694,004.2,W*70\r\n", 2}, /* of another receiver */
};

/* Each with its number, and nothing of it is heard or found. */
static void check_refused(void)
{
    lindenscoop_listener listener;
    CHECK(lindenscoop_start(LINDENSCOOP_RMC, &listener) == LINDENSCOOP_OK);
    for (size_t i = 0; i < sizeof refused / sizeof *refused; i++) {
        size_t length = strlen(refused[i].string), n = 77;
        lindenscoop_record r;
        CHECK(lindenscoop_read(LINDENSCOOP_RMC, refused[i].string, length, &r) == refused[i].answer);
        CHECK(r.position == LINDENSCOOP_ABSENT && r.date == LINDENSCOOP_ABSENT);
        CHECK(lindenscoop_feed_all(&listener, refused[i].string, length, &n, &r) == LINDENSCOOP_OK && n == length);
        CHECK(lindenscoop_search(LINDENSCOOP_RMC, refused[i].string, length, 0, &n, &r) == LINDENSCOOP_NOT_FOUND);
    }
}

/* No byte of a string can be replaced by another, since the sum has it or it is fixed. */
static void check_one_byte(void)
{
    unsigned accepted = 0;
    for (size_t i = 0; i < KNOWN; i++)
        for (size_t at = 0; at < LENGTH; at++)
            for (uint8_t change = 255; change > 0; change--) {
                uint8_t bytes[LENGTH];
                lindenscoop_record r;
                memcpy(bytes, known[i].string, LENGTH);
                bytes[at] ^= change;
                accepted += lindenscoop_read(LINDENSCOOP_RMC, bytes, LENGTH, &r) == LINDENSCOOP_OK;
            }
    CHECK(accepted == 0);
}

int main(void)
{
    check_known();
    check_carried();
    check_refused();
    check_one_byte();
    return told("rmc");
}
