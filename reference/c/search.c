/* The search for the first valid string of a form. */
#include "plain.h"

/* First and last byte are tested before the reader is called: on most streams nearly every place fails there. */
uint32_t plain_search(uint32_t form, const uint8_t *bytes, size_t length, size_t start, size_t *place, lindenscoop_record *record)
{
    *place = 0;
    if (plain_is_serial(form) && length >= plain_shapes[form].length) {
        const plain_shape shape = plain_shapes[form];
        const size_t last_place = length - shape.length;
        for (size_t p = start; p <= last_place; p++)
            if (bytes[p] == shape.first && bytes[p + shape.length - 1] == shape.last
                && plain_read_string(form, bytes + p, record) == LINDENSCOOP_OK) {
                *place = p;
                return LINDENSCOOP_OK;
            }
    }
    *record = (lindenscoop_record){0};
    return plain_is_serial(form) ? LINDENSCOOP_NOT_FOUND : LINDENSCOOP_UNKNOWN_FORM;
}
