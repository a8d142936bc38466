/* The orientation of EXIF data: tag 0112 of the first directory of a TIFF text in an APP1 segment (Exif 2.3, 4.6). */
#include "orientation.h"

#include <string.h>

enum { START_OF_SCAN = 0xDA, APP1 = 0xE1, ORIENTATION = 0x0112, SHORT = 3, ENTRY_BYTES = 12 };

/* A TIFF text: its numbers have the most or the least significant byte first. */
struct tiff {
    const uint8_t *data;
    size_t length;
    int is_big;
};

/* The number of this many bytes at an offset; 0 if they are not there. */
static uint32_t number_at(const struct tiff *text, size_t at, size_t bytes) {
    uint32_t number = 0;
    if (at > text->length || bytes > text->length - at)
        return 0;
    for (size_t i = 0; i < bytes; i++)
        number = number << 8 | text->data[at + (text->is_big ? i : bytes - 1 - i)];
    return number;
}

/* The orientation that the entry of a directory gives; 0 where it gives none. */
static unsigned orientation_of_entry(const struct tiff *text, size_t at) {
    uint32_t tag = number_at(text, at, 2), type = number_at(text, at + 2, 2), count = number_at(text, at + 4, 4);
    uint32_t value = number_at(text, at + 8, 2);
    return tag == ORIENTATION && type == SHORT && count == 1 && value <= 8 ? value : 0;
}

static unsigned orientation_of_text(const struct tiff *text) {
    size_t directory = number_at(text, 4, 4);
    unsigned entries = number_at(text, directory, 2), found = 0;
    for (unsigned i = 0; i < entries && !found; i++)
        found = orientation_of_entry(text, directory + 2 + (size_t)ENTRY_BYTES * i);
    return found;
}

unsigned orientation_of(const uint8_t *file, size_t length) {
    size_t at = 2;
    while (at + 4 <= length && file[at] == 0xFF && file[at + 1] != START_OF_SCAN) {
        const uint8_t *payload = file + at + 4;
        size_t segment = (size_t)file[at + 2] << 8 | file[at + 3];
        if (file[at + 1] == 0xFF) { /* a fill byte */
            at++;
            continue;
        }
        if (segment < 2 || at + 2 + segment > length)
            return 0;
        if (file[at + 1] == APP1 && segment >= 16 && !memcmp(payload, "Exif\0\0", 6)) {
            struct tiff text = {payload + 6, segment - 8, payload[6] == 'M'};
            return orientation_of_text(&text);
        }
        at += 2 + segment;
    }
    return 0;
}
