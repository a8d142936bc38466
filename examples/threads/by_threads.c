/*
 * Thread 0 adds the parts; the others, and thread 0 in the end, take them and decode them. Where restart markers divide the file
 * into many intervals a part is some lines, which jri_decode_lines finds by the markers. In other files thread 0 skips the rows of
 * MCUs, and adds the position of each part as soon as it knows it. A part's buffer is its own lines alone, so no two calls share
 * memory but the file.
 */
#define _POSIX_C_SOURCE 200809L

#include "by_threads.h"

#include <pthread.h>
#include <stdlib.h>

/*
 * Threads.
 */

struct crew {
    void (*work)(void *argument, unsigned number);
    void *argument;
    pthread_mutex_t lock;
    unsigned numbers; /* the number of numbers that are taken */
};

static void *run_one(void *argument) {
    struct crew *crew = argument;
    pthread_mutex_lock(&crew->lock);
    unsigned number = crew->numbers++;
    pthread_mutex_unlock(&crew->lock);
    crew->work(crew->argument, number);
    return NULL;
}

void run_threads(unsigned threads, void (*work)(void *argument, unsigned number), void *argument) {
    struct crew crew = {.work = work, .argument = argument, .lock = PTHREAD_MUTEX_INITIALIZER, .numbers = 1};
    unsigned others = threads > 1 ? threads - 1 : 0, started = 0;
    pthread_t *running = calloc(others + 1u, sizeof *running);
    while (running && started < others && pthread_create(&running[started], NULL, run_one, &crew) == 0)
        started++;
    work(argument, 0);
    while (started > 0)
        pthread_join(running[--started], NULL);
    free(running);
    pthread_mutex_destroy(&crew.lock);
}

/*
 * Parts.
 */

/* Rows of MCUs: the position before them, and their lines of the image. */
struct part {
    struct jri_position position;
    uint32_t first, lines;
};

struct decoding {
    const uint8_t *file;
    size_t length;
    uint8_t *pixels;
    size_t line_size;
    uint32_t height, rows;
    uint32_t lines; /* the number of lines of a part; 0 if parts begin at positions */
    pthread_mutex_t lock;
    pthread_cond_t changed;
    struct part *parts;
    size_t capacity, known, taken;
    int is_all_known;
    uint32_t status; /* the first one that is not JRI_OK */
};

/* Adds a part, or none after the last one. */
static void add_part(struct decoding *d, const struct part *part) {
    pthread_mutex_lock(&d->lock);
    if (part && d->known < d->capacity)
        d->parts[d->known++] = *part;
    else
        d->is_all_known = 1;
    pthread_cond_broadcast(&d->changed);
    pthread_mutex_unlock(&d->lock);
}

/* Takes the next part, once it is known. Returns 0 if there is none, or a call has failed. */
static int take_part(struct decoding *d, struct part *part) {
    pthread_mutex_lock(&d->lock);
    while (d->taken == d->known && !d->is_all_known)
        pthread_cond_wait(&d->changed, &d->lock);
    int is_taken = d->taken < d->known && d->status == JRI_OK;
    if (is_taken)
        *part = d->parts[d->taken++];
    pthread_mutex_unlock(&d->lock);
    return is_taken;
}

static void fail(struct decoding *d, uint32_t status) {
    pthread_mutex_lock(&d->lock);
    if (d->status == JRI_OK)
        d->status = status;
    pthread_mutex_unlock(&d->lock);
    add_part(d, NULL);
}

/* Skips the rows of a part. Returns the number of their lines, 0 if the call fails. */
static uint32_t skip_part(struct decoding *d, struct jri_position *position) {
    struct jri_rows report;
    uint32_t status = jri_skip_rows(d->file, d->length, JRI_COMPLETE, position, d->rows, &report);
    if (status != JRI_OK)
        fail(d, status);
    return report.lines;
}

/* Adds all parts. Each has as many lines as the first one, but the last, which need not be skipped. */
static void add_parts(struct decoding *d) {
    struct part part = {{0}, 0, 0};
    struct jri_position next = {0};
    uint32_t lines = skip_part(d, &next);
    while (lines) {
        uint32_t left = d->height - part.first;
        part.lines = lines < left ? lines : left;
        add_part(d, &part);
        if (left <= lines || (part.first && !skip_part(d, &next)))
            break;
        part.position = next;
        part.first += lines;
    }
    add_part(d, NULL);
}

/* Adds all parts of a file whose parts are lines. */
static void add_line_parts(struct decoding *d) {
    struct part part = {{0}, 0, 0};
    for (; part.first < d->height; part.first += d->lines) {
        uint32_t left = d->height - part.first;
        part.lines = d->lines < left ? d->lines : left;
        add_part(d, &part);
    }
    add_part(d, NULL);
}

static uint32_t decode_part(struct decoding *d, struct part *part) {
    uint8_t *pixels = d->pixels + part->first * d->line_size;
    size_t size = part->lines * d->line_size;
    if (d->lines) {
        struct jri_report report;
        uint32_t status = jri_decode_lines(d->file, d->length, JRI_AS_IS, part->first, part->lines, pixels, size, &report);
        return status == JRI_DAMAGED ? JRI_OK : status;
    }
    struct jri_rows report;
    return jri_decode_rows(d->file, d->length, JRI_COMPLETE, &part->position, d->rows, pixels, size, &report);
}

static void decode_parts(struct decoding *d) {
    struct part part;
    while (take_part(d, &part)) {
        uint32_t status = decode_part(d, &part);
        if (status != JRI_OK)
            fail(d, status);
    }
}

static void work(void *argument, unsigned number) {
    struct decoding *d = argument;
    if (number == 0 && d->lines)
        add_line_parts(d);
    else if (number == 0)
        add_parts(d);
    decode_parts(d);
}

/*
 * Returns the number of lines of a part, whole rows of MCUs, if each of two parts a thread has eight intervals or more, otherwise 0.
 * Parts are few, since each call reads the whole file to find its intervals.
 */
static uint32_t lines_of_part(const struct jri_header *header, unsigned threads) {
    if (threads < 2 || header->intervals / 16 < threads)
        return 0;
    uint32_t rows = header->mcus_down / (2 * threads) + 1;
    return rows * header->mcu_height;
}

uint32_t decode_by_threads(const uint8_t *file, size_t length, const struct jri_header *header, uint8_t *pixels, unsigned threads,
                           uint32_t rows) {
    struct decoding d = {.file = file, .length = length, .pixels = pixels, .height = header->height, .rows = rows ? rows : 1};
    d.line_size = header->pixels / header->height;
    d.lines = lines_of_part(header, threads);
    d.capacity = header->mcus_down; /* a part has a row of MCUs or more */
    d.parts = malloc(d.capacity * sizeof *d.parts);
    if (!d.parts)
        return JRI_NO_MEMORY;
    pthread_mutex_init(&d.lock, NULL);
    pthread_cond_init(&d.changed, NULL);
    run_threads(threads, work, &d);
    pthread_cond_destroy(&d.changed);
    pthread_mutex_destroy(&d.lock);
    free(d.parts);
    return d.status;
}
