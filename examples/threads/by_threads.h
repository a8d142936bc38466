/* Decodes one file with several threads of the caller's. */
#ifndef BY_THREADS_H
#define BY_THREADS_H

#include <jri.h>

/*
 * Calls `work` in `threads` threads at once, and returns when all calls have returned. Number 0 runs in the calling thread; the
 * others are fewer if no more can be started.
 */
void run_threads(unsigned threads, void (*work)(void *argument, unsigned number), void *argument);

/*
 * Decodes a file of this header into `pixels`, which has header->pixels bytes, with `threads` threads, in parts of `rows` rows of
 * MCUs; if the file has 16 restart intervals or more for each thread, in two parts for each. The file must not change meanwhile.
 * Returns JRI_OK, or another status of a call, and then the pixels mean nothing.
 */
uint32_t decode_by_threads(const uint8_t *file, size_t length, const struct jri_header *header, uint8_t *pixels, unsigned threads,
                           uint32_t rows);

#endif
