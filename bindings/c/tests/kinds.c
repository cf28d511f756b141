/*
 * The kinds of a fraction and of a position, each with each: read from a block, got, set and written again as the same bytes, and never
 * taken for another kind. Compiled as C and as C++, under the sanitizers.
 */
#include "trial.h"

/* A fraction as the block spells it, and its value; parts is what lindenscoop_get_fraction gives beside it, 0 where it answers false. */
static const struct fraction {
    const char *spelled;
    uint32_t kind, value, parts;
} fractions[] = {{"-", LINDENSCOOP_ABSENT, 0, 0},
                 {"00", LINDENSCOOP_HUNDREDTHS, 0, 0},
                 {"99", LINDENSCOOP_HUNDREDTHS, 99, 0},
                 {"007", LINDENSCOOP_THOUSANDTHS, 7, 1000},
                 {"0000007", LINDENSCOOP_TEN_MILLIONTHS, 7, 10000000}};

/* A position as the block spells it, in the units of its kind. Two of them are of one place, 47 degrees 21 minutes north, 8 degrees 3.75
   minutes east, and have nothing but the place in common. */
static const struct position {
    const char *spelled;
    uint32_t kind;
    int32_t latitude, longitude;
    uint32_t altitude;
} positions[] = {{"-", LINDENSCOOP_ABSENT, 0, 0, 0},
                 {"+047.3500 +008.0625 0431", LINDENSCOOP_DEGREES, 473500, 80625, 431},
                 {"-090.0000 -180.0000 9999", LINDENSCOOP_DEGREES, -900000, -1800000, 9999},
                 {"+4721.00 +00803.75", LINDENSCOOP_MINUTES, 284100, 48375, 0},
                 {"-9000.00 -18000.00", LINDENSCOOP_MINUTES, -540000, -1080000, 0},
                 {"-0000.01 +00059.99", LINDENSCOOP_MINUTES, -1, 5999, 0},
                 {"+0000.00 +00000.00", LINDENSCOOP_MINUTES, 0, 0, 0}};

enum { FRACTIONS = sizeof fractions / sizeof *fractions, POSITIONS = sizeof positions / sizeof *positions, ROOM = LINDENSCOOP_LONGEST_STRING + 1 };

/* A block with everything that a form can ask for beside fraction and position. */
static void spell(char *block, const char *fraction, const char *position)
{
    static const char text[] = "date=24-01-01\ntime=12:00:00\nfraction=%s\nchannel=0\nsync=yes\nfix=yes\nutc=no\nsummer=no\nchange=no\nleap=no\noffset=+00:00\nposition=%s\ndsp=no\nlsp=no\n";
    CHECK(snprintf(block, ROOM, text, fraction, position) < ROOM);
}

/* Each get answers for its own kind alone, and stores nothing else. */
static void check_got(const lindenscoop_record *r, const struct fraction *f, const struct position *p)
{
    uint32_t value = 77, parts = 77, hundredths = 77, altitude = 77;
    int32_t latitude = -77, longitude = -77;
    CHECK(lindenscoop_get_fraction(r, &value, &parts) == (f->parts != 0));
    CHECK(value == (f->parts ? f->value : 77) && parts == (f->parts ? f->parts : 77));
    CHECK(lindenscoop_get_hundredths(r, &hundredths) == (f->kind == LINDENSCOOP_HUNDREDTHS));
    CHECK(hundredths == (f->kind == LINDENSCOOP_HUNDREDTHS ? f->value : 77));
    CHECK(lindenscoop_get_position(r, &latitude, &longitude, &altitude) == (p->kind == LINDENSCOOP_DEGREES));
    CHECK(p->kind == LINDENSCOOP_DEGREES ? latitude == p->latitude && longitude == p->longitude && altitude == p->altitude
                                         : latitude == -77 && longitude == -77 && altitude == 77);
    latitude = longitude = -77;
    CHECK(lindenscoop_get_position_minutes(r, &latitude, &longitude) == (p->kind == LINDENSCOOP_MINUTES));
    CHECK(p->kind == LINDENSCOOP_MINUTES ? latitude == p->latitude && longitude == p->longitude : latitude == -77 && longitude == -77);
    CHECK(r->fraction == f->kind && r->fraction_units == f->value && r->position == p->kind && r->altitude_metres == p->altitude);
}

static void set(lindenscoop_record *r, const struct fraction *f, const struct position *p)
{
    if (f->parts)
        lindenscoop_set_fraction(r, f->kind, f->value);
    if (f->kind == LINDENSCOOP_HUNDREDTHS)
        lindenscoop_set_hundredths(r, f->value);
    if (p->kind == LINDENSCOOP_DEGREES)
        lindenscoop_set_position(r, p->latitude, p->longitude, p->altitude);
    if (p->kind == LINDENSCOOP_MINUTES)
        lindenscoop_set_position_minutes(r, p->latitude, p->longitude);
}

/* A pair through the block and back: read, got, set in a record without it, written again. */
static void check_pair(const struct fraction *f, const struct position *p)
{
    char block[ROOM], bare[ROOM], out[ROOM];
    lindenscoop_record r, made;
    size_t written = 0;
    spell(block, f->spelled, p->spelled);
    r = record_of(block);
    check_got(&r, f, p);
    spell(bare, "-", "-");
    made = record_of(bare);
    made.altitude_metres = 0xffffffffu; /* set anew by each set, and not looked at where no position is set */
    set(&made, f, p);
    CHECK(lindenscoop_write(LINDENSCOOP_BLOCK, &made, out, sizeof out, &written) == LINDENSCOOP_OK && written == strlen(block));
    CHECK(memcmp(out, block, written) == 0);
    if (p->kind == LINDENSCOOP_ABSENT)
        made.altitude_metres = 0;
    CHECK(memcmp(&made, &r, sizeof r) == 0);
}

/* The kinds that a form asks for; ABSENT where it carries no such field. */
static const struct asking {
    uint32_t form, fraction, position;
} askings[] = {{LINDENSCOOP_CAPTURE, LINDENSCOOP_TEN_MILLIONTHS, LINDENSCOOP_ABSENT},
               {LINDENSCOOP_ERLANGEN, LINDENSCOOP_ABSENT, LINDENSCOOP_DEGREES},
               {LINDENSCOOP_SPA, LINDENSCOOP_THOUSANDTHS, LINDENSCOOP_ABSENT},
               {LINDENSCOOP_RMC, LINDENSCOOP_HUNDREDTHS, LINDENSCOOP_MINUTES}};

/* A form is written of the kind that it carries; any other is refused with 8, and is not turned into it. What is read back has that kind. */
static void check_asked(const struct fraction *f, const struct position *p)
{
    char block[ROOM];
    spell(block, f->spelled, p->spelled);
    const lindenscoop_record r = record_of(block);
    for (size_t i = 0; i < sizeof askings / sizeof *askings; i++) {
        const struct asking *a = &askings[i];
        uint8_t out[ROOM];
        size_t written = 77;
        lindenscoop_record back;
        bool fits = (!a->fraction || a->fraction == f->kind) && (!a->position || a->position == p->kind);
        CHECK(lindenscoop_write(a->form, &r, out, sizeof out, &written) == (fits ? LINDENSCOOP_OK : LINDENSCOOP_MISSING_FIELD));
        CHECK((written == 0) == !fits);
        if (!fits)
            continue;
        CHECK(lindenscoop_read(a->form, out, written, &back) == LINDENSCOOP_OK && back.fraction == a->fraction && back.position == a->position);
        CHECK(!a->fraction || back.fraction_units == r.fraction_units);
        CHECK(!a->position || (back.latitude_units == r.latitude_units && back.longitude_units == r.longitude_units && back.altitude_metres == r.altitude_metres));
    }
}

/* Values outside the range of their kind, of which some are inside another's, and kinds that there are not. */
static void check_bad(void)
{
    static const uint32_t wrong_fractions[][2] = {{LINDENSCOOP_THOUSANDTHS, 1000}, {LINDENSCOOP_TEN_MILLIONTHS, 10000000}, {4, 0}, {0xffffffffu, 0}};
    static const uint32_t wrong_hundredths[] = {100, 999, 0xffffffffu};
    static const int32_t wrong_minutes[][2] = {{540001, 0}, {-540001, 0}, {0, 1080001}, {0, -1080001}, {900000, 0}, {INT32_MIN, 0}, {0, INT32_MIN}};
    uint8_t out[ROOM];
    size_t written = 77;
    lindenscoop_record r;
    memset(&r, 0, sizeof r);
    for (size_t i = 0; i < sizeof wrong_fractions / sizeof *wrong_fractions; i++) {
        lindenscoop_set_fraction(&r, wrong_fractions[i][0], wrong_fractions[i][1]);
        CHECK(lindenscoop_write(LINDENSCOOP_BLOCK, &r, out, sizeof out, &written) == LINDENSCOOP_BAD_RECORD && written == 0);
    }
    for (size_t i = 0; i < sizeof wrong_hundredths / sizeof *wrong_hundredths; i++) {
        lindenscoop_set_hundredths(&r, wrong_hundredths[i]);
        CHECK(lindenscoop_write(LINDENSCOOP_BLOCK, &r, out, sizeof out, &written) == LINDENSCOOP_BAD_RECORD && written == 0);
    }
    r.fraction = LINDENSCOOP_ABSENT;
    for (size_t i = 0; i < sizeof wrong_minutes / sizeof *wrong_minutes; i++) {
        lindenscoop_set_position_minutes(&r, wrong_minutes[i][0], wrong_minutes[i][1]);
        CHECK(lindenscoop_write(LINDENSCOOP_BLOCK, &r, out, sizeof out, &written) == LINDENSCOOP_BAD_RECORD && written == 0);
    }
    lindenscoop_set_position_minutes(&r, 0, 0);
    r.position = 3;
    CHECK(lindenscoop_write(LINDENSCOOP_BLOCK, &r, out, sizeof out, &written) == LINDENSCOOP_BAD_RECORD && written == 0);
    lindenscoop_set_position(&r, 540001, 1080001, 0);
    CHECK(lindenscoop_write(LINDENSCOOP_BLOCK, &r, out, sizeof out, &written) == LINDENSCOOP_OK && written > 0);
}

/* Signs and magnitudes that no record has: no answer, and no overflow. */
static void check_signs(void)
{
    char block[ROOM];
    int32_t x = -77, y = -77;
    lindenscoop_record r;
    spell(block, "-", "+4721.00 +00803.75");
    r = record_of(block);
    r.longitude_units = 0x80000000u;
    CHECK(!lindenscoop_get_position_minutes(&r, &x, &y) && x == -77 && y == -77);
    r.longitude_units = 0x7fffffffu;
    r.west = 1;
    CHECK(lindenscoop_get_position_minutes(&r, &x, &y) && x == 284100 && y == -0x7fffffff);
    r.south = 2;
    CHECK(!lindenscoop_get_position_minutes(&r, &y, &x) && x == 284100);
}

/* The altitude of a position in minutes is neither looked at nor kept, and a sign on a zero is dropped. */
static void check_not_looked_at(void)
{
    char block[ROOM], out[ROOM];
    size_t written = 0;
    lindenscoop_record r;
    spell(block, "-", "+0000.00 +00803.75");
    r = record_of(block);
    r.altitude_metres = 10000;
    r.south = 1;
    CHECK(lindenscoop_write(LINDENSCOOP_BLOCK, &r, out, sizeof out, &written) == LINDENSCOOP_OK && written == strlen(block));
    CHECK(memcmp(out, block, written) == 0);
}

/* Spellings that are none of these kinds, or tell what no record has. */
static void check_spellings(void)
{
    static const struct {
        const char *fraction, *position;
        uint32_t answer;
    } wrong[] = {{"0", "-", 3},
                 {"0000", "-", 3},
                 {" 7", "-", 3},
                 {"-", "+4721.00 +00803.75 0431", 3},
                 {"-", "+4721.00 +008.0625", 3},
                 {"-", "+047.3500 +008.0625", 3},
                 {"-", "+4721.00 +0803.75", 3},
                 {"-", "+4721.0 +00803.75", 3},
                 {"-", "4721.00 +00803.75", 3},
                 {"-", "+4721.00 +  803.75", 3},
                 {"-", "+4760.00 +00803.75", 4},
                 {"-", "+4721.00 +00899.99", 4},
                 {"-", "+9000.01 +00803.75", 4},
                 {"-", "+4721.00 +18000.01", 4},
                 {"-", "+9060.00 +00803.75", 4},
                 {"-", "-0000.00 +00803.75", 5},
                 {"-", "+4721.00 -00000.00", 5}};
    for (size_t i = 0; i < sizeof wrong / sizeof *wrong; i++) {
        char block[ROOM];
        lindenscoop_record r;
        spell(block, wrong[i].fraction, wrong[i].position);
        CHECK(lindenscoop_read(LINDENSCOOP_BLOCK, block, strlen(block), &r) == wrong[i].answer);
        CHECK(r.fraction == LINDENSCOOP_ABSENT && r.position == LINDENSCOOP_ABSENT && r.sync == LINDENSCOOP_ABSENT);
    }
}

int main(void)
{
    for (size_t f = 0; f < FRACTIONS; f++)
        for (size_t p = 0; p < POSITIONS; p++) {
            check_pair(&fractions[f], &positions[p]);
            check_asked(&fractions[f], &positions[p]);
        }
    check_bad();
    check_signs();
    check_not_looked_at();
    check_spellings();
    return told("kinds");
}
