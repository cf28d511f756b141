/*
 * The program `heard`: a first line with the form's number, 1 to 7 (document 01 gives it one byte, so forms 10 and 12 are none of its
 * forms), then the stream; it prints a block and an empty line for each string, and a last line. The last n-1 bytes of each read go to the
 * head of the buffer, since a string that has begun there may end in the next read.
 */
#define _POSIX_C_SOURCE 200809L
#include <stdio.h>
#include <string.h>
#include <unistd.h>

#include "plain.h"

/* A string has 16 bytes at the least, and its block with the empty line 175 at the most: 11 bytes for each byte read. */
enum { READ = 65536, PRINTED = 11 * READ };

static uint8_t in[READ];
static uint8_t out[PRINTED];

static bool print(const uint8_t *bytes, size_t length)
{
    while (length > 0) {
        const ssize_t done = write(STDOUT_FILENO, bytes, length);
        if (done <= 0)
            return false;
        bytes += done;
        length -= (size_t)done;
    }
    return true;
}

static bool print_text(const char *text)
{
    return print((const uint8_t *)text, strlen(text));
}

/* A read that fails counts as the end of the stream. */
static size_t read_some(uint8_t *bytes, size_t room)
{
    const ssize_t got = read(STDIN_FILENO, bytes, room);
    return got < 0 ? 0 : (size_t)got;
}

/* The form of the first line, 0 for a bad or missing one. */
static uint32_t read_form(void)
{
    uint8_t line[2];
    size_t got = read_some(line, 2);
    if (got == 1)
        got += read_some(line + 1, 1);
    return got == 2 && '1' <= line[0] && line[0] <= '7' && line[1] == '\n' ? line[0] - (uint32_t)'0' : 0;
}

/* Prints the strings among the first bytes of the buffer; their number, or -1 where a write fails. */
static long print_strings(uint32_t form, size_t length)
{
    size_t at = 0, place = 0, printed = 0;
    long telegrams = 0;
    lindenscoop_record record;
    while (plain_search(form, in, length, at, &place, &record) == LINDENSCOOP_OK) {
        printed += plain_block(&record, out + printed);
        out[printed++] = '\n';
        telegrams++;
        at = place + plain_shapes[form].length;
    }
    return print(out, printed) ? telegrams : -1;
}

int main(void)
{
    const uint32_t form = read_form();
    if (form == 0)
        return print_text("refused=1\n") ? 0 : 1;
    unsigned long long bytes = 0, telegrams = 0;
    size_t kept = 0, got;
    while ((got = read_some(in + kept, READ - kept)) > 0) {
        const size_t length = kept + got, most = plain_shapes[form].length - 1u;
        const long found = print_strings(form, length);
        if (found < 0)
            return 1;
        bytes += got;
        telegrams += (unsigned long long)found;
        kept = length < most ? length : most;
        memmove(in, in + length - kept, kept);
    }
    char line[64];
    snprintf(line, sizeof line, "end bytes=%llu telegrams=%llu\n", bytes, telegrams);
    return print_text(line) ? 0 : 1;
}
