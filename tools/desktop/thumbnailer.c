/*
 * Makes a thumbnail of a JPEG file for a desktop: a PNG file of at most SIZE pixels across and down.
 *
 *     jri-thumbnailer SIZE FILE OUTPUT
 *
 * libjri decodes the file, some rows of MCUs at a time, so memory is that of the file and of some lines, whatever the header
 * claims. What is damaged is grey. Each pixel of the thumbnail is the mean of a box of the image's pixels. The thumbnail is turned
 * as the file's EXIF data say. A file that jri refuses, for example a progressive one, is left to gdk-pixbuf-thumbnailer.
 *
 * The exit status is 0 if the thumbnail is written, 2 if the file is refused and nothing else decodes it, otherwise 1.
 */
#define _POSIX_C_SOURCE 200809L
#include "orientation.h"
#include <jri.h>

#include <errno.h>
#include <fcntl.h>
#include <inttypes.h>
#include <png.h>
#include <stdarg.h>
#include <stdio.h>
#include <stdlib.h>
#include <string.h>
#include <sys/stat.h>
#include <unistd.h>

enum { FAILED = 1, REFUSED = 2 };
/* Rows of MCUs that are decoded by one call, and the lines that 16 bits can sum up. */
enum { ROWS = 8, MAX_SUMMED = 257 };

struct bytes {
    uint8_t *data;
    size_t length;
};

/* An image of `channels` bytes a pixel. */
struct image {
    uint32_t across, down, channels;
    uint8_t *pixels;
};

/* The image that is made smaller: sums of the lines that are taken for the next line of the thumbnail. */
struct scaler {
    struct image to;
    uint32_t width, height;
    uint32_t line;     /* the next line of the image */
    uint32_t row;      /* the next line of the thumbnail */
    uint32_t summed;   /* the number of lines in `columns` */
    uint32_t taken;    /* the number of lines that are taken for the thumbnail's next line */
    uint16_t *columns; /* the sums of each column */
    uint64_t *sums;    /* the sums of each pixel of the thumbnail's next line */
};

static int fail(int status, const char *text, ...) {
    va_list more;
    va_start(more, text);
    fputs("jri-thumbnailer: ", stderr);
    vfprintf(stderr, text, more);
    fputc('\n', stderr);
    va_end(more);
    return status;
}

/* Reads a file; no data on failure. */
static struct bytes read_file(const char *name) {
    struct bytes file = {NULL, 0};
    struct stat found;
    int input = open(name, O_RDONLY | O_CLOEXEC);
    if (input < 0)
        return file;
    size_t size = !fstat(input, &found) && S_ISREG(found.st_mode) ? (size_t)found.st_size + 1 : 1 << 16;
    for (file.data = malloc(size); file.data;) {
        ssize_t count = read(input, file.data + file.length, size - file.length);
        if (count < 0 && errno == EINTR)
            continue;
        file.length += count > 0 ? (size_t)count : 0;
        if (count <= 0) {
            if (count < 0)
                free(file.data), file.data = NULL;
            break;
        }
        if (file.length == size) {
            uint8_t *grown = realloc(file.data, size *= 2);
            if (!grown)
                free(file.data);
            file.data = grown;
        }
    }
    close(input);
    return file;
}

/* Returns the size of the thumbnail of an image; no image is made larger, and a narrow one keeps a column or a line. */
static struct image fitted(uint32_t width, uint32_t height, uint32_t size) {
    struct image to = {width, height, 0, NULL};
    uint64_t longer = width > height ? width : height;
    if (longer > size) {
        to.across = (uint32_t)(((uint64_t)width * size + longer / 2) / longer);
        to.down = (uint32_t)(((uint64_t)height * size + longer / 2) / longer);
    }
    to.across += !to.across;
    to.down += !to.down;
    return to;
}

/* Returns the pixel with which box `number` of `to` boxes over `from` pixels begins. */
static uint32_t box_at(uint32_t number, uint32_t from, uint32_t to) {
    return (uint32_t)(((uint64_t)number * from + to / 2) / to);
}

/* Adds the sums of the columns to those of the thumbnail's pixels. */
static void add_columns(struct scaler *s) {
    const uint16_t *column = s->columns;
    for (uint32_t x = 0; x < s->to.across; x++) {
        uint32_t count = box_at(x + 1, s->width, s->to.across) - box_at(x, s->width, s->to.across);
        for (uint32_t k = 0; k < count; k++)
            for (uint32_t c = 0; c < s->to.channels; c++)
                s->sums[(size_t)x * s->to.channels + c] += *column++;
    }
    memset(s->columns, 0, sizeof *s->columns * s->width * s->to.channels);
    s->summed = 0;
}

/* Ends a line of the thumbnail: each of its pixels is a mean. */
static void end_row(struct scaler *s) {
    uint8_t *pixel = s->to.pixels + (size_t)s->row * s->to.across * s->to.channels;
    add_columns(s);
    for (uint32_t x = 0; x < s->to.across; x++) {
        uint64_t count = (uint64_t)s->taken * (box_at(x + 1, s->width, s->to.across) - box_at(x, s->width, s->to.across));
        for (uint32_t c = 0; c < s->to.channels; c++, pixel++)
            *pixel = (uint8_t)((s->sums[(size_t)x * s->to.channels + c] + count / 2) / count);
    }
    memset(s->sums, 0, sizeof *s->sums * s->to.across * s->to.channels);
    s->taken = 0;
    s->row++;
}

/* Takes the next line of the image. */
static void take_line(struct scaler *s, const uint8_t *line) {
    size_t length = (size_t)s->width * s->to.channels;
    for (size_t i = 0; i < length; i++)
        s->columns[i] = (uint16_t)(s->columns[i] + line[i]);
    s->taken++;
    if (++s->summed == MAX_SUMMED)
        add_columns(s);
    if (++s->line == box_at(s->row + 1, s->height, s->to.down))
        end_row(s);
}

/* Decodes the file into the scaler, and returns the status of libjri. */
static uint32_t scale(const struct bytes *file, const struct jri_header *header, struct scaler *s) {
    size_t line = (size_t)s->width * s->to.channels, size = line * header->mcu_height * ROWS;
    uint8_t *lines = malloc(size);
    struct jri_position position = {0};
    struct jri_rows found;
    uint32_t status = lines ? JRI_OK : JRI_NO_MEMORY;
    while (status == JRI_OK) {
        status = jri_decode_rows(file->data, file->length, JRI_COMPLETE, &position, ROWS, lines, size, &found);
        for (uint32_t k = 0; status == JRI_OK && k < found.lines; k++)
            take_line(s, lines + k * line);
    }
    free(lines);
    return status == JRI_NO_LINES ? JRI_OK : status;
}

/* Returns the thumbnail of a file; no pixels if memory runs out. */
static struct image thumbnail(const struct bytes *file, const struct jri_header *header, uint32_t size) {
    struct scaler s = {.to = fitted(header->width, header->height, size), .width = header->width, .height = header->height};
    s.to.channels = header->components;
    s.to.pixels = malloc((size_t)s.to.across * s.to.down * s.to.channels);
    s.columns = calloc((size_t)s.width * s.to.channels, sizeof *s.columns);
    s.sums = calloc((size_t)s.to.across * s.to.channels, sizeof *s.sums);
    if (!s.to.pixels || !s.columns || !s.sums || scale(file, header, &s) != JRI_OK)
        free(s.to.pixels), s.to.pixels = NULL;
    free(s.columns);
    free(s.sums);
    return s.to;
}

/* Returns the image turned as an orientation of EXIF says, and frees the other; no pixels if memory runs out. */
static struct image turned(struct image from, unsigned orientation) {
    int is_across = orientation > 4;
    struct image to = {is_across ? from.down : from.across, is_across ? from.across : from.down, from.channels, NULL};
    if (orientation < 2 || !from.pixels)
        return from;
    to.pixels = malloc((size_t)to.across * to.down * to.channels);
    for (uint32_t y = 0; to.pixels && y < to.down; y++)
        for (uint32_t x = 0; x < to.across; x++) {
            uint32_t u = is_across ? y : x, v = is_across ? x : y;
            if (orientation == 2 || orientation == 3 || orientation == 7 || orientation == 8)
                u = from.across - 1 - u;
            if (orientation == 3 || orientation == 4 || orientation == 6 || orientation == 7)
                v = from.down - 1 - v;
            memcpy(to.pixels + ((size_t)y * to.across + x) * to.channels, from.pixels + ((size_t)v * from.across + u) * to.channels,
                   to.channels);
        }
    free(from.pixels);
    return to;
}

/* Writes an image as PNG, and returns whether it is written; otherwise there is no file. */
static int write_png(const struct image *image, const char *name) {
    png_image png = {.version = PNG_IMAGE_VERSION, .width = image->across, .height = image->down};
    png.format = image->channels == 1 ? PNG_FORMAT_GRAY : PNG_FORMAT_RGB;
    if (png_image_write_to_file(&png, name, 0, image->pixels, 0, NULL))
        return 1;
    unlink(name);
    return 0;
}

/* Leaves a file that jri refuses to the desktop's own thumbnailer; returns only if there is none. */
static int leave(const char *size, const char *file, const char *output, const struct jri_header *header) {
    uint8_t text[64];
    int length = (int)jri_refusal_text(header->refusal, header->detail, text, sizeof text);
    execlp("gdk-pixbuf-thumbnailer", "gdk-pixbuf-thumbnailer", "-s", size, file, output, (char *)NULL);
    return fail(REFUSED, "no thumbnail of %s: refused %" PRIu32 ": %.*s", file, header->refusal, length, (const char *)text);
}

int main(int count, char **words) {
    char *end = NULL;
    unsigned long size = count == 4 ? strtoul(words[1], &end, 10) : 0;
    struct jri_header header;
    if (count != 4)
        return fail(FAILED, "usage: jri-thumbnailer SIZE FILE OUTPUT");
    if (size == 0 || size > 65535 || *end || *words[1] < '1' || *words[1] > '9')
        return fail(FAILED, "SIZE is a number of pixels, not %s", words[1]);
    struct bytes file = read_file(words[2]);
    if (!file.data)
        return fail(FAILED, "cannot read %s", words[2]);
    uint32_t status = jri_read_header(file.data, file.length, JRI_COMPLETE, &header);
    if (status == JRI_REFUSED)
        return leave(words[1], words[2], words[3], &header);
    struct image image = {0};
    if (status == JRI_OK)
        image = turned(thumbnail(&file, &header, (uint32_t)size), orientation_of(file.data, file.length));
    if (!image.pixels)
        return fail(FAILED, "out of memory");
    return write_png(&image, words[3]) ? 0 : fail(FAILED, "cannot write %s", words[3]);
}
