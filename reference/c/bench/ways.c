/*
 * Measures every way to the records of a stream, of the library or, compiled with PLAIN, of the C program:  ways FILE [ROUNDS]
 *
 * FILE is a stream as `streams` prints it. Each way prints its name, the strings that it found or wrote, and MB/s, the best of the rounds;
 * callgrind counts the instructions of each function way_*.
 */
#define _POSIX_C_SOURCE 200809L
#include <inttypes.h>
#include <stdio.h>
#include <stdlib.h>
#include <time.h>

#include "../plain.h"

#ifdef PLAIN
#define CALL(name) plain_##name
#else
#define CALL(name) lindenscoop_##name
#endif

/* A way is a function of its own, whatever the compiler would make of it. */
#define WAY __attribute__((noinline)) static size_t

enum { BUFFER = 65536 };

static uint32_t form;
static size_t n;
static uint8_t *stream, *marks;
static size_t length;
static lindenscoop_record *records;
static size_t strings;

WAY way_search(void)
{
    lindenscoop_record record;
    size_t found = 0, at = 0, place;
    for (; CALL(search)(form, stream, length, at, &place, &record) == LINDENSCOOP_OK; at = place + n)
        found++;
    return found;
}

WAY way_feed(void)
{
    CALL(listener) listener;
    lindenscoop_record record;
    size_t found = 0;
    CALL(start)(form, &listener);
    for (size_t i = 0; i < length; i++)
        found += CALL(feed)(&listener, stream[i], &record) == LINDENSCOOP_HEARD;
    return found;
}

WAY way_feed_all(void)
{
    CALL(listener) listener;
    lindenscoop_record record;
    size_t found = 0, used;
    CALL(start)(form, &listener);
    for (size_t at = 0; at < length; at += used) {
        const size_t buffer = BUFFER - at % BUFFER, part = buffer < length - at ? buffer : length - at;
        found += CALL(feed_all)(&listener, stream + at, part, &used, &record) == LINDENSCOOP_HEARD;
    }
    return found;
}

WAY way_mark(void)
{
    CALL(mark)(form, stream, length, marks, length);
    return 0;
}

static size_t marked(void)
{
    size_t found = 0;
    for (size_t i = 0; i < length; i++)
        found += marks[i];
    return found;
}

WAY way_read(void)
{
    lindenscoop_record record;
    size_t found = 0;
    for (size_t at = 0; at + n <= length; at += n)
        found += CALL(read)(form, stream + at, n, &record) == LINDENSCOOP_OK;
    return found;
}

static size_t write_all(uint32_t to)
{
    uint8_t out[LINDENSCOOP_LONGEST_STRING];
    size_t done = 0, written;
    for (size_t i = 0; i < strings; i++)
        done += CALL(write)(to, records + i, out, sizeof out, &written) == LINDENSCOOP_OK;
    return done;
}

WAY way_write(void)
{
    return write_all(form);
}

WAY way_block(void)
{
    return write_all(LINDENSCOOP_BLOCK);
}

/* The stream behind its first line, and its records, which are to be written. */
static void load(const char *name)
{
    FILE *file = fopen(name, "rb");
    if (!file || fscanf(file, "%" SCNu32, &form) != 1 || fgetc(file) != '\n' || !plain_is_serial(form)) {
        fprintf(stderr, "%s: not a stream with a form's line\n", name);
        exit(1);
    }
    const long head = ftell(file);
    fseek(file, 0, SEEK_END);
    n = plain_shapes[form].length;
    length = (size_t)(ftell(file) - head);
    stream = malloc(length + 1);
    marks = malloc(length + 1);
    records = malloc((length / n + 1) * sizeof *records);
    if (!stream || !marks || !records || fseek(file, head, SEEK_SET) || fread(stream, 1, length, file) != length) {
        perror(name);
        exit(1);
    }
    fclose(file);
    for (size_t at = 0, place; plain_search(form, stream, length, at, &place, records + strings) == LINDENSCOOP_OK; at = place + n)
        strings++;
}

static double seconds(void)
{
    struct timespec now;
    clock_gettime(CLOCK_MONOTONIC, &now);
    return (double)now.tv_sec + (double)now.tv_nsec / 1e9;
}

int main(int argc, char **argv)
{
    static const struct {
        const char *name;
        size_t (*run)(void);
    } ways[] = {{"search", way_search}, {"feed", way_feed},   {"feed_all", way_feed_all}, {"mark", way_mark},
                {"read", way_read},     {"write", way_write}, {"block", way_block}};
    if (argc < 2) {
        fprintf(stderr, "usage: ways FILE [ROUNDS]\n");
        return 2;
    }
    load(argv[1]);
    for (size_t i = 0; i < sizeof ways / sizeof *ways; i++) {
        size_t found = 0;
        double best = 1e9;
        for (int round = argc > 2 ? atoi(argv[2]) : 1; round > 0; round--) {
            const double begin = seconds();
            found = ways[i].run();
            const double taken = seconds() - begin;
            best = taken < best ? taken : best;
        }
        printf("%s %zu %.1f\n", ways[i].name, ways[i].run == way_mark ? marked() : found, (double)length / best / 1e6);
    }
    return 0;
}
