/*
 * Decodes a file with several threads.
 *
 *     decode FILE THREADS ROWS [RUNS]
 *
 * A part has ROWS rows of MCUs. Writes the image to standard output, as Netpbm. With RUNS writes the minimum times of RUNS
 * decodings instead, interleaved, by jri_decode and by the threads, in milliseconds of the clock, and their ratio.
 */
#define _POSIX_C_SOURCE 200809L

#include "by_threads.h"

#include <inttypes.h>
#include <stdio.h>
#include <stdlib.h>
#include <time.h>

struct file {
    uint8_t *data;
    size_t length;
    struct jri_header header;
    uint8_t *pixels;
};

static double milliseconds(void) {
    struct timespec now;
    clock_gettime(CLOCK_MONOTONIC, &now);
    return now.tv_sec * 1e3 + now.tv_nsec / 1e6;
}

static void time_both(const struct file *f, unsigned threads, uint32_t rows, int runs) {
    double least[2] = {1e9, 1e9};
    for (int run = 0; run < 2 * runs; run++) {
        struct jri_report report;
        double from = milliseconds();
        if (run % 2 == 0)
            jri_decode(f->data, f->length, JRI_AS_IS, f->pixels, f->header.pixels, NULL, 0, &report);
        else
            decode_by_threads(f->data, f->length, &f->header, f->pixels, threads, rows);
        double taken = milliseconds() - from;
        least[run % 2] = taken < least[run % 2] ? taken : least[run % 2];
    }
    printf("%.1f %.1f %.2f\n", least[0], least[1], least[1] / least[0]);
}

static uint32_t decode(struct file *f, unsigned threads, uint32_t rows, int runs) {
    uint32_t status = jri_read_header(f->data, f->length, JRI_COMPLETE, &f->header);
    if (status != JRI_OK)
        return status;
    f->pixels = malloc(f->header.pixels);
    if (!f->pixels)
        return JRI_NO_MEMORY;
    if (runs > 0) {
        time_both(f, threads, rows, runs);
        return JRI_OK;
    }
    status = decode_by_threads(f->data, f->length, &f->header, f->pixels, threads, rows);
    if (status == JRI_OK) {
        printf("P%c\n%" PRIu32 " %" PRIu32 "\n255\n", f->header.components == 1 ? '5' : '6', f->header.width, f->header.height);
        fwrite(f->pixels, 1, f->header.pixels, stdout);
    }
    return status;
}

static int read_file(struct file *f, const char *name) {
    FILE *stream = fopen(name, "rb");
    if (!stream)
        return 0;
    fseek(stream, 0, SEEK_END);
    f->length = (size_t)ftell(stream);
    rewind(stream);
    f->data = malloc(f->length + 1);
    int is_read = f->data && fread(f->data, 1, f->length, stream) == f->length;
    fclose(stream);
    return is_read;
}

int main(int argc, char **argv) {
    struct file f = {0};
    if (argc != 4 && argc != 5) {
        fprintf(stderr, "usage: decode FILE THREADS ROWS [RUNS]\n");
        return JRI_NO_MEMORY;
    }
    uint32_t status = JRI_NO_MEMORY;
    if (read_file(&f, argv[1]))
        status = decode(&f, (unsigned)atoi(argv[2]), (uint32_t)atoi(argv[3]), argc == 5 ? atoi(argv[4]) : 0);
    free(f.pixels);
    free(f.data);
    return (int)status;
}
