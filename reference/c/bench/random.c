#include "random.h"

#include <string.h>

#include "../calendar.h"
#include "../spell.h"

static uint64_t state;

void seed(uint64_t value)
{
    state = value;
}

/* The generator "splitmix64". */
uint32_t below(uint32_t limit)
{
    uint64_t x = state += 0x9e3779b97f4a7c15;
    x = (x ^ (x >> 30)) * 0xbf58476d1ce4e5b9;
    x = (x ^ (x >> 27)) * 0x94d049bb133111eb;
    return (uint32_t)(((x ^ (x >> 31)) >> 32) * limit >> 32);
}

/* A number of a range; one in eight is its first, one in eight its last, since mistakes are made there. */
static uint32_t between(uint32_t low, uint32_t high)
{
    switch (below(8)) {
    case 0: return low;
    case 1: return high;
    default: return low + below(high - low + 1);
    }
}

static uint32_t any_flag(void)
{
    return LINDENSCOOP_NO + below(2);
}

/* Document 01 allows neither utc and summer both yes, nor, in form 1, change and leap. */
static void random_flags(uint32_t form, lindenscoop_record *r)
{
    r->sync = any_flag();
    r->fix = any_flag();
    r->utc = any_flag();
    r->summer = r->utc == LINDENSCOOP_YES ? LINDENSCOOP_NO : any_flag();
    r->change = any_flag();
    r->leap = form == LINDENSCOOP_STANDARD && r->change == LINDENSCOOP_YES ? LINDENSCOOP_NO : any_flag();
    r->dsp = any_flag();
    r->lsp = any_flag();
}

static void random_date(uint32_t form, lindenscoop_record *r)
{
    if (form == LINDENSCOOP_SYSPLEX || (form == LINDENSCOOP_BLOCK && below(2))) {
        r->date = LINDENSCOOP_DAY_OF_YEAR;
        r->day_of_year = between(1, 366);
        return;
    }
    r->date = LINDENSCOOP_FULL_DATE;
    do {
        r->yy = between(0, 99);
        r->month = between(1, 12);
        r->day = between(1, 31);
    } while (!calendar_is_date(r->yy, r->month, r->day));
}

/* The kind that the form carries, and any kind for the block. */
static void random_fraction(uint32_t form, lindenscoop_record *r)
{
    static const uint32_t last[] = {[LINDENSCOOP_THOUSANDTHS] = 999, [LINDENSCOOP_TEN_MILLIONTHS] = 9999999, [LINDENSCOOP_HUNDREDTHS] = 99};
    switch (form) {
    case LINDENSCOOP_SPA: r->fraction = LINDENSCOOP_THOUSANDTHS; break;
    case LINDENSCOOP_RMC: r->fraction = LINDENSCOOP_HUNDREDTHS; break;
    case LINDENSCOOP_BLOCK: r->fraction = 1 + below(3); break;
    default: r->fraction = LINDENSCOOP_TEN_MILLIONTHS; break;
    }
    r->fraction_units = between(0, last[r->fraction]);
}

/* One angle in four is near zero, where the padding is longest. */
static uint32_t random_angle(uint32_t limit)
{
    return below(4) ? between(0, limit) : below(20000);
}

/* A zero may have a sign, which must be dropped, and minutes an altitude, which must not be looked at. */
static void random_position(uint32_t form, lindenscoop_record *r)
{
    const bool minutes = form == LINDENSCOOP_RMC || (form == LINDENSCOOP_BLOCK && below(2));
    r->position = minutes ? LINDENSCOOP_MINUTES : LINDENSCOOP_DEGREES;
    r->south = below(2);
    r->latitude_units = random_angle(minutes ? 540000 : 900000);
    r->west = below(2);
    r->longitude_units = random_angle(minutes ? 1080000 : 1800000);
    r->altitude_metres = below(4) ? between(0, 9999) : below(100);
}

void random_record(uint32_t form, lindenscoop_record *r)
{
    *r = (lindenscoop_record){.hour = between(0, 23), .minute = between(0, 59), .second = below(50) ? below(60) : 60};
    random_date(form, r);
    random_fraction(form, r);
    r->channel = LINDENSCOOP_PRESENT;
    r->channel_number = below(2);
    random_flags(form, r);
    lindenscoop_set_offset(r, below(8) ? (int32_t)between(0, 1680) - 840 : 0);
    random_position(form, r);
}

void random_string(uint32_t form, uint8_t *out)
{
    lindenscoop_record record;
    size_t written;
    random_record(form, &record);
    plain_write(form, &record, out, plain_shapes[form].length, &written);
}

static uint8_t other_byte(uint8_t old)
{
    static const char usual[] = " 0123456789+-:.,;/?#*US!ALNEVWmDTCHXG>$\1\2\3\r\n";
    if (below(2) && '0' <= old && old <= '9')
        return (uint8_t)('0' + below(10));
    switch (below(3)) {
    case 0: return (uint8_t)below(256);
    case 1: return (uint8_t)(old ^ 1 << below(8));
    default: return (uint8_t)usual[below(sizeof usual - 1)];
    }
}

/* Offsets and places that are just good or just bad, put into a string of form 3. */
static void put_edge_values(uint8_t *s)
{
    static const char offsets[][7] = {"+14:00", "-14:00", "+14:01", "-14:01", "+00:00", "-00:00", "+00:60", "-13:60"};
    static const char latitudes[][10] = {" 90.0000N", " 90.0000S", " 90.0001N", " 90.0001S", "  0.0000N", "  0.0000S", "  0.0001S", " 00.0000N"};
    static const char longitudes[][10] = {"180.0000E", "180.0000W", "180.0001E", "180.0001W", "  0.0000E", "  0.0000W", "  0.0001W", "000.0000E"};
    switch (below(4)) {
    case 0: memcpy(s + 24, offsets[below(8)], 6); break;
    case 1: memcpy(s + 40, latitudes[below(8)], 9); break;
    case 2: memcpy(s + 50, longitudes[below(8)], 9); break;
    default: s[38] ^= 'L' ^ ' '; break;
    }
}

/* Places that are just good or just bad, and now and then a variation to the west, put into a string of form 12. */
static void put_rmc_edge_values(uint8_t *s)
{
    static const char latitudes[][10] = {"9000.00,N", "9000.00,S", "9000.01,N", "9000.01,S", "8959.99,S", "8960.00,N", "9059.99,N",
                                         "9060.00,S", "0000.00,N", "0000.00,S", "0000.01,S", "0060.00,N", " 000.00,N", "0 21.00,N"};
    static const char longitudes[][11] = {"18000.00,E", "18000.00,W", "18000.01,E", "18000.01,W", "17959.99,W", "17960.00,E", "18059.99,E",
                                          "18060.00,W", "00000.00,E", "00000.00,W", "00000.01,W", "00060.00,E", "  000.00,E", "00 03.75,E"};
    if (below(4))
        memcpy(s + 19, latitudes[below(sizeof latitudes / sizeof *latitudes)], 9);
    if (below(4))
        memcpy(s + 29, longitudes[below(sizeof longitudes / sizeof *longitudes)], 10);
    if (below(16) == 0)
        s[59] = 'W';
}

/* The words of document 004, those of the other manuals, and words padded or spelled otherwise, put into a string of form 10. */
static void put_zone(uint8_t *s)
{
    static const char words[][5] = {"UTC ", "CET ", "CEST", "MEZ ", "MESZ", "utc ", "cest",
                                    " UTC", " CET", "CES ", "CETS", "UTCS", "    ", "GMT "};
    memcpy(s + 20, words[below(sizeof words / sizeof *words)], 4);
}

static void change_bytes(uint32_t form, uint8_t *s)
{
    for (uint32_t times = 1 + below(3); times > 0; times--) {
        uint8_t *b = s + below(plain_shapes[form].length);
        *b = other_byte(*b);
    }
}

/* The right sum, three times in four; now and then its letters are small ones, which the forms do not have. */
static void put_sum(uint8_t *s, uint8_t sum)
{
    if (below(4) == 0)
        return;
    put_hex(s, sum);
    if (below(16) == 0) {
        s[0] |= 0x20;
        s[1] |= 0x20;
    }
}

void damage(uint32_t form, uint8_t *string)
{
    if (form == LINDENSCOOP_ERLANGEN && below(3))
        put_edge_values(string);
    else if (form == LINDENSCOOP_SAT && below(3) == 0)
        put_zone(string);
    else if (form == LINDENSCOOP_RMC && below(2))
        put_rmc_edge_values(string);
    else
        change_bytes(form, string);
    if (form == LINDENSCOOP_SPA)
        put_sum(string + 29, plain_spa_sum(string));
    if (form == LINDENSCOOP_RMC)
        put_sum(string + 61, plain_rmc_sum(string));
}

size_t random_piece(uint32_t form, uint8_t *out)
{
    const size_t n = plain_shapes[form].length;
    random_string(form, out);
    switch (below(8)) {
    case 0:
    case 1: damage(form, out); return n;
    case 2: return below((uint32_t)n);
    case 3: {
        const size_t lost = below((uint32_t)n);
        memmove(out, out + lost, n - lost);
        return n - lost;
    }
    case 4: memset(out, plain_shapes[form].first, 3); return 1 + below(3);
    case 5: {
        const size_t length = below(20);
        for (size_t i = 0; i < length; i++)
            out[i] = (uint8_t)below(256);
        return length;
    }
    default: return n;
    }
}
