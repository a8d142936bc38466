/* How a picture is turned, by its EXIF data. */
#ifndef ORIENTATION_H
#define ORIENTATION_H

#include <stddef.h>
#include <stdint.h>

/* The orientation that a JPEG file's first Exif segment gives, 1 to 8; 0 if it gives none. */
unsigned orientation_of(const uint8_t *file, size_t length);

#endif
