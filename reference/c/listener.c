/* The listener: one byte at a time, with the last bytes in a ring. */
#include <string.h>

#include "plain.h"

enum { VERSION = LINDENSCOOP_STATE_VERSION << 4 };

uint32_t plain_start(uint32_t form, plain_listener *listener)
{
    *listener = (plain_listener){.form = VERSION};
    if (!plain_is_serial(form))
        return LINDENSCOOP_UNKNOWN_FORM;
    listener->form = (uint8_t)(VERSION | form);
    listener->distance = (uint8_t)plain_shapes[form].length;
    return LINDENSCOOP_OK;
}

/* The last n bytes of the ring, in order. */
static void unroll(const plain_listener *l, size_t n, uint8_t *out)
{
    const size_t from = l->at >= n ? l->at - n : l->at + PLAIN_LONGEST - n;
    const size_t head = PLAIN_LONGEST - from < n ? PLAIN_LONGEST - from : n;
    memcpy(out, l->ring + from, head);
    memcpy(out + head, l->ring, n - head);
}

/* The answer to a byte that may be the last of a string, at a distance from the record before. */
static uint32_t completed(plain_listener *l, uint32_t form, uint32_t distance, lindenscoop_record *record)
{
    const plain_shape shape = plain_shapes[form];
    uint8_t string[PLAIN_LONGEST];
    lindenscoop_record read;
    unroll(l, shape.length, string);
    if (string[0] != shape.first || plain_read_string(form, string, &read) != LINDENSCOOP_OK)
        return LINDENSCOOP_OK;
    if (distance + 1 < shape.length)
        return LINDENSCOOP_OVERLAP;
    *record = read;
    l->distance = 0;
    return LINDENSCOOP_HEARD;
}

/* The call comes last, so that the many bytes that complete nothing pay for none. */
static inline uint32_t feed(plain_listener *l, uint8_t byte, lindenscoop_record *record)
{
    const uint32_t form = l->form ^ VERSION;
    if (form > PLAIN_LAST_FORM)
        return LINDENSCOOP_BAD_STATE;
    const plain_shape shape = plain_shapes[form];
    const uint32_t kept = l->kept, distance = l->distance;
    if (kept >= shape.length || distance > shape.length)
        return LINDENSCOOP_BAD_STATE;
    l->ring[l->at] = byte;
    l->at = l->at + 1 == PLAIN_LONGEST ? 0 : l->at + 1;
    if (kept + 1 < shape.length)
        l->kept = (uint8_t)(kept + 1);
    if (distance < shape.length)
        l->distance = (uint8_t)(distance + 1);
    return byte == shape.last && kept + 1 == shape.length ? completed(l, form, distance, record) : LINDENSCOOP_OK;
}

uint32_t plain_feed(plain_listener *listener, uint8_t byte, lindenscoop_record *record)
{
    return feed(listener, byte, record);
}

uint32_t plain_feed_all(plain_listener *listener, const uint8_t *bytes, size_t length, size_t *used, lindenscoop_record *record)
{
    uint32_t answer = LINDENSCOOP_OK;
    size_t i = 0;
    while (i < length && answer == LINDENSCOOP_OK)
        answer = feed(listener, bytes[i++], record);
    *used = i;
    return answer;
}

uint32_t plain_mark(uint32_t form, const uint8_t *bytes, size_t length, uint8_t *marks, size_t marks_length)
{
    plain_listener listener;
    lindenscoop_record record;
    if (plain_start(form, &listener) != LINDENSCOOP_OK)
        return LINDENSCOOP_UNKNOWN_FORM;
    if (marks_length < length)
        return LINDENSCOOP_SHORT_BUFFER;
    for (size_t i = 0; i < length; i++)
        marks[i] = feed(&listener, bytes[i], &record) == LINDENSCOOP_HEARD;
    return LINDENSCOOP_OK;
}
