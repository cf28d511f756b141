/*
 * Prints the time strings that are heard in a serial log as CSV: a header line, then a line for each record, with
 * empty cells for fields that were not sent.
 *
 *     heard_csv FORM [FILE]      FORM is 1..7, 10 or 12; standard input where no file is named
 *
 *     cc -O2 -std=c99 -Ibindings/c/include bindings/c/examples/heard_csv.c target/staticlib/liblindenscoop.a -o heard_csv
 */
#include <stdio.h>

#include "lindenscoop.h"

static const char header[] =
#include "../../heard_csv.columns"
    ;

static void print_flag(uint32_t flag)
{
    printf(",%s", lindenscoop_is_yes(flag) ? "yes" : lindenscoop_is_no(flag) ? "no" : "");
}

/* With as many digits as it was sent with. */
static void print_fraction(const lindenscoop_record *r)
{
    uint32_t value, parts;
    if (lindenscoop_get_fraction(r, &value, &parts))
        printf("0.%0*u", parts == 1000 ? 3 : 7, (unsigned)value);
    else if (lindenscoop_get_hundredths(r, &value))
        printf("0.%02u", (unsigned)value);
}

static void print_time(const lindenscoop_record *r)
{
    uint32_t year, month, day, channel;
    if (lindenscoop_get_date(r, &year, &month, &day))
        printf("%04u-%02u-%02u", (unsigned)year, (unsigned)month, (unsigned)day);
    printf(",");
    if (lindenscoop_get_day_of_year(r, &day))
        printf("%u", (unsigned)day);
    printf(",%02u:%02u:%02u,", (unsigned)r->hour, (unsigned)r->minute, (unsigned)r->second);
    print_fraction(r);
    printf(",");
    if (lindenscoop_get_channel(r, &channel))
        printf("%u", (unsigned)channel);
}

/* A number of hundredths or ten-thousandths, by its digits behind the point. */
static void print_angle(int32_t value, int digits)
{
    const uint32_t magnitude = lindenscoop_magnitude(value), parts = digits == 2 ? 100 : 10000;
    printf(",%s%u.%0*u", value < 0 ? "-" : "", (unsigned)(magnitude / parts), digits, (unsigned)(magnitude % parts));
}

/* The offset, and a position in degrees; one in minutes has columns of its own. */
static void print_place(const lindenscoop_record *r)
{
    int32_t minutes, latitude, longitude;
    uint32_t altitude;
    printf(",");
    if (lindenscoop_get_offset(r, &minutes)) {
        uint32_t magnitude = lindenscoop_magnitude(minutes);
        printf("%c%02u:%02u", minutes < 0 ? '-' : '+', (unsigned)(magnitude / 60), (unsigned)(magnitude % 60));
    }
    if (lindenscoop_get_position(r, &latitude, &longitude, &altitude)) {
        print_angle(latitude, 4);
        print_angle(longitude, 4);
        printf(",%u", (unsigned)altitude);
    } else {
        printf(",,,");
    }
}

static void print_minutes(const lindenscoop_record *r)
{
    int32_t latitude, longitude;
    if (lindenscoop_get_position_minutes(r, &latitude, &longitude)) {
        print_angle(latitude, 2);
        print_angle(longitude, 2);
    } else {
        printf(",,");
    }
}

static void print_record(const lindenscoop_record *r)
{
    print_time(r);
    print_flag(r->sync);
    print_flag(r->fix);
    print_flag(r->utc);
    print_flag(r->summer);
    print_flag(r->change);
    print_flag(r->leap);
    print_place(r);
    print_flag(r->dsp);
    print_flag(r->lsp);
    print_minutes(r);
    printf("\n");
}

/* Feeds a part of the log, and prints each record at the byte that completes it. */
static void hear(lindenscoop_listener *listener, const unsigned char *bytes, size_t length)
{
    size_t at = 0;
    while (at < length) {
        lindenscoop_record record;
        size_t used = 0;
        if (lindenscoop_feed_all(listener, bytes + at, length - at, &used, &record) == LINDENSCOOP_HEARD)
            print_record(&record);
        at += used;
    }
}

/* The form that a word names by its digits, two at most and no zero in front; 0, which is no form, for any other word. */
static uint32_t form_of(const char *word)
{
    uint32_t form = 0;
    size_t digits = 0;
    for (; digits < 2 && '0' <= word[digits] && word[digits] <= '9'; digits++)
        form = 10 * form + (uint32_t)(word[digits] - '0');
    return word[0] != '0' && word[digits] == '\0' ? form : 0;
}

int main(int argc, char **argv)
{
    lindenscoop_listener listener;
    unsigned char part[4096];
    size_t got;
    uint32_t answer;
    FILE *log = stdin;

    if (argc < 2 || argc > 3) {
        fprintf(stderr, "usage: heard_csv FORM [FILE]\n");
        return 2;
    }
    answer = lindenscoop_start(form_of(argv[1]), &listener);
    if (answer != LINDENSCOOP_OK) {
        fprintf(stderr, "heard_csv: form %s: refused with %u: %s\n", argv[1], (unsigned)answer, lindenscoop_message(answer));
        return 1;
    }
    if (argc == 3 && !(log = fopen(argv[2], "rb"))) {
        perror(argv[2]);
        return 1;
    }
    printf("%s\n", header);
    while ((got = fread(part, 1, sizeof part, log)) > 0)
        hear(&listener, part, got);
    if (ferror(log)) {
        perror("heard_csv");
        return 1;
    }
    if (fflush(stdout) || ferror(stdout)) {
        perror("heard_csv: standard output");
        return 1;
    }
    return 0;
}
