/*
 * A caller of libjri, which does for one file what jri does: the picture as a Netpbm text on standard output, the report on
 * standard error, and the same exit status.
 *
 *     picture FILE
 */
#include "jri.h"

#include <inttypes.h>
#include <stdio.h>
#include <stdlib.h>

static int refused(uint32_t refusal, uint64_t detail) {
    uint8_t text[64];
    uint64_t length = jri_refusal_text(refusal, detail, text, sizeof text);
    fprintf(stderr, "refused %" PRIu32 ": %.*s\n", refusal, (int)length, (const char *)text);
    return JRI_REFUSED;
}

static void print_report(const struct jri_report *r) {
    fprintf(stderr, "intervals %" PRIu32 " sound %" PRIu32 " damaged %" PRIu32 " blank %" PRIu32 "\nscan ended at ", r->intervals,
            r->sound, r->damaged, r->blank);
    switch (r->ended) {
    case JRI_END_OF_IMAGE: fprintf(stderr, "EOI\n"); break;
    case JRI_OTHER_MARKER: fprintf(stderr, "marker %02" PRIX32 ", byte %" PRIu64 "\n", r->found, r->at); break;
    case JRI_OUT_OF_STEP:
        fprintf(stderr, "RST%" PRIu32 " where RST%" PRIu32 " was due, byte %" PRIu64 "\n", r->found, r->due, r->at);
        break;
    case JRI_EXTRA_RESTART: fprintf(stderr, "a restart marker past the last interval, byte %" PRIu64 "\n", r->at); break;
    default: fprintf(stderr, "the end of the file\n");
    }
}

/* Decodes a file, and writes its picture; the exit status. */
static int decode(const uint8_t *file, size_t length) {
    struct jri_header header;
    struct jri_report report;
    uint32_t status = jri_read_header(file, length, JRI_COMPLETE, &header);
    if (status == JRI_REFUSED)
        return refused(header.refusal, header.detail);
    uint8_t *pixels = status == JRI_OK ? malloc(header.pixels) : NULL;
    if (pixels)
        status = jri_decode(file, length, JRI_AS_IS, pixels, header.pixels, NULL, 0, &report);
    if (!pixels || status == JRI_NO_MEMORY) {
        fprintf(stderr, "out of memory\n");
        free(pixels);
        return JRI_NO_MEMORY;
    }
    printf("P%c\n%" PRIu32 " %" PRIu32 "\n255\n", header.components == 1 ? '5' : '6', header.width, header.height);
    fwrite(pixels, 1, header.pixels, stdout);
    free(pixels);
    print_report(&report);
    return (int)status;
}

int main(int argc, char **argv) {
    FILE *stream = argc == 2 ? fopen(argv[1], "rb") : NULL;
    if (!stream)
        return JRI_NO_MEMORY;
    fseek(stream, 0, SEEK_END);
    size_t length = (size_t)ftell(stream);
    rewind(stream);
    uint8_t *file = malloc(length + 1);
    int status = file && fread(file, 1, length, stream) == length ? decode(file, length) : JRI_NO_MEMORY;
    free(file);
    fclose(stream);
    return status;
}
