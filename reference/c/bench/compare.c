/*
 * Runs the C program and the library on the same random input, sound and damaged, and compares answers, records and buffers:
 *
 *     compare [SEED [ROUNDS]]
 *
 * It stops at the first difference, and fails too where an answer of lindenscoop.h never came up.
 */
#include <stdio.h>
#include <stdlib.h>
#include <string.h>

#include "random.h"

#define SAME(test) ((test) ? (void)0 : differ(__LINE__, #test))

enum { STREAM = 600, ROOM = 200, ANSWERS = LINDENSCOOP_HEARD + 1 };

static const uint32_t serial_forms[] = {1, 2, 3, 4, 5, 6, 7, 10, 12}, other_forms[] = {0, 8, 9, 11, 15, 255, 266, 4294967295};

static unsigned long long first_seed = 1, calls, seen[ANSWERS];
static uint32_t form;

/* A number that search and listener do not know. */
static uint32_t other_form(void)
{
    return other_forms[below(sizeof other_forms / sizeof *other_forms)];
}

static void differ(int line, const char *test)
{
    fprintf(stderr, "compare: line %d, seed %llu, form %u: not %s\n", line, first_seed, (unsigned)form, test);
    exit(1);
}

/* Both answers, which must be one, and both records. */
static void same(uint32_t ours, uint32_t library, const lindenscoop_record *a, const lindenscoop_record *b)
{
    calls++;
    seen[library]++;
    SAME(ours == library);
    SAME(memcmp(a, b, sizeof *a) == 0);
}

static void compare_read(const uint8_t *s, size_t length)
{
    lindenscoop_record a, b;
    memset(&a, 0x55, sizeof a);
    memset(&b, 0xaa, sizeof b);
    const uint32_t ours = plain_read(form, s, length, &a);
    same(ours, lindenscoop_read(form, s, length, &b), &a, &b);
}

static void compare_write(uint32_t to, const lindenscoop_record *r, size_t room)
{
    uint8_t a[ROOM], b[ROOM];
    size_t ours_written, library_written;
    memset(a, 0x55, ROOM);
    memset(b, 0x55, ROOM);
    const uint32_t ours = plain_write(to, r, a, room, &ours_written);
    same(ours, lindenscoop_write(to, r, b, room, &library_written), r, r);
    SAME(ours_written == library_written);
    SAME(memcmp(a, b, ROOM) == 0);
}

/* One number of a record replaced by one that is often just outside a range. */
static void replace_number(lindenscoop_record *r)
{
    static const uint32_t values[] = {0, 1, 2, 3, 4, 24, 60, 61, 99, 100, 366, 367, 840, 841, 999, 1000, 10000, 540000, 540001, 899999,
                                      900000, 900001, 1080000, 1080001, 1800001, 9999999, 10000000, 2147483647, 4294967295};
    ((uint32_t *)r)[below(LINDENSCOOP_RECORD_NUMBERS)] = values[below(sizeof values / sizeof *values)];
}

/* One field made absent; its numbers stay, and must not be looked at. */
static void remove_field(lindenscoop_record *r)
{
    uint32_t *const kinds[] = {&r->date, &r->fraction, &r->channel, &r->sync,     &r->fix, &r->utc, &r->summer,
                               &r->change, &r->leap, &r->offset,  &r->position, &r->dsp, &r->lsp};
    *kinds[below(sizeof kinds / sizeof *kinds)] = LINDENSCOOP_ABSENT;
}

static void compare_writers(void)
{
    static const uint32_t forms[] = {0, 1, 2, 3, 4, 5, 6, 7, 9, 9, 10, 12, 15, 266, 4294967295};
    lindenscoop_record r;
    random_record(form, &r);
    compare_write(form, &r, plain_shapes[form].length - 1 + below(3));
    random_record(LINDENSCOOP_BLOCK, &r);
    for (uint32_t absent = below(14); absent > 0; absent--)
        remove_field(&r);
    if (below(2))
        replace_number(&r);
    compare_write(LINDENSCOOP_BLOCK, &r, 118 + below(60));
    /* A record made for the block has fields of any kind, so some are not of the form's. */
    random_record(below(4) ? form : LINDENSCOOP_BLOCK, &r);
    if (below(2))
        remove_field(&r);
    if (below(2))
        replace_number(&r);
    compare_write(below(4) ? form : forms[below(sizeof forms / sizeof *forms)], &r, below(8) ? ROOM : below(ROOM));
}

static void compare_readers(void)
{
    uint8_t s[PLAIN_LONGEST + 1] = {0};
    const size_t n = plain_shapes[form].length;
    random_string(form, s);
    compare_read(s, n);
    compare_read(s, n - 1 + 2 * below(2));
    for (int i = 0; i < 8; i++) {
        random_string(form, s);
        damage(form, s);
        compare_read(s, n);
    }
}

/* Every place from a start to the answer "not found". */
static void compare_search(uint32_t in, const uint8_t *s, size_t length, size_t start)
{
    lindenscoop_record a, b;
    size_t ours_place, library_place;
    uint32_t answer;
    do {
        const uint32_t ours = plain_search(in, s, length, start, &ours_place, &a);
        answer = lindenscoop_search(in, s, length, start, &library_place, &b);
        same(ours, answer, &a, &b);
        SAME(ours_place == library_place);
        start = library_place + 1;
    } while (answer == LINDENSCOOP_OK);
}

/* One byte to two listeners of the same state, which then have the same state again. */
static void compare_feed(plain_listener *l, lindenscoop_listener *m, uint8_t byte)
{
    lindenscoop_record a = {0}, b = {0};
    const uint32_t ours = plain_feed(l, byte, &a);
    same(ours, lindenscoop_feed(m, byte, &b), &a, &b);
    SAME(memcmp(l, m, sizeof *l) == 0);
}

static void compare_feed_all(const uint8_t *s, size_t length)
{
    plain_listener l;
    lindenscoop_listener m;
    lindenscoop_record a = {0}, b = {0};
    plain_start(form, &l);
    lindenscoop_start(form, &m);
    for (size_t at = 0, used, other; at < length; at += used) {
        const uint32_t ours = plain_feed_all(&l, s + at, length - at, &used, &a);
        same(ours, lindenscoop_feed_all(&m, s + at, length - at, &other, &b), &a, &b);
        SAME(used == other && memcmp(&l, &m, sizeof l) == 0);
    }
}

static void compare_mark(uint32_t in, const uint8_t *s, size_t length, size_t room)
{
    static const lindenscoop_record none;
    uint8_t a[STREAM] = {0}, b[STREAM] = {0};
    const uint32_t ours = plain_mark(in, s, length, a, room);
    same(ours, lindenscoop_mark(in, s, length, b, room), &none, &none);
    SAME(memcmp(a, b, STREAM) == 0);
}

/* A state that no start leads to: a string but for its last byte, and kept and distance as it may be. */
static void compare_made_state(void)
{
    plain_listener l = {.form = (uint8_t)(below(8) ? LINDENSCOOP_STATE_VERSION << 4 | form : below(256)), .at = (uint8_t)below(PLAIN_LONGEST)};
    lindenscoop_listener m;
    uint8_t s[PLAIN_LONGEST];
    const uint32_t n = plain_shapes[form].length;
    random_string(form, s);
    for (uint32_t i = 0; i + 1 < n; i++)
        l.ring[(l.at + PLAIN_LONGEST - (n - 1) + i) % PLAIN_LONGEST] = s[i];
    l.kept = (uint8_t)(n - below(3));
    l.distance = (uint8_t)(n + 1 - below(4));
    memcpy(&m, &l, sizeof l);
    compare_feed(&l, &m, s[n - 1]);
}

static void compare_streams(void)
{
    uint8_t s[STREAM];
    size_t length = 0;
    while (length + PLAIN_LONGEST <= STREAM)
        length += random_piece(form, s + length);
    compare_search(form, s, length, below(STREAM + 100));
    compare_search(form, s, length, 0);
    compare_search(other_form(), s, length, 0);
    compare_feed_all(s, length);
    compare_mark(form, s, length, length - below(2));
    compare_mark(other_form(), s, length, length);

    plain_listener l;
    lindenscoop_listener m;
    const uint32_t in = below(20) ? form : other_form();
    const uint32_t ours = plain_start(in, &l);
    SAME(ours == lindenscoop_start(in, &m) && memcmp(&l, &m, sizeof l) == 0);
    for (size_t i = 0; i < length; i++)
        compare_feed(&l, &m, s[i]);
}

int main(int argc, char **argv)
{
    first_seed = argc > 1 ? strtoull(argv[1], NULL, 10) : 1;
    const unsigned long rounds = argc > 2 ? strtoul(argv[2], NULL, 10) : 20000;
    seed(first_seed);
    for (unsigned long i = 0; i < rounds; i++) {
        form = serial_forms[i % (sizeof serial_forms / sizeof *serial_forms)];
        compare_writers();
        compare_readers();
        compare_made_state();
        compare_streams();
    }
    for (uint32_t answer = 0; answer <= LINDENSCOOP_OVERLAP; answer++)
        SAME(seen[answer] > 0);
    SAME(seen[LINDENSCOOP_HEARD] > 0);
    printf("compare: %llu calls, the same answers\n", calls);
    return 0;
}
