/*
 * Calls libjri where little goes well, for tools/check-library, which links it with --wrap for malloc and realloc.
 *
 *     trials FILE ..
 *
 * Of each file, which jri accepts, it sees that larger buffers are unchanged after the image, that ones with
 * too little are not touched, that each request for memory may be refused, that the file may be resynchronised, has the same
 * image by JRI_RESYNC, and may be mended from itself and a copy without a scan, that lines decoded alone are those of the image, and so are rows from positions, of a file that
 * is there, arrives, or is passed by windows, that any position and window may be passed, and that many threads may decode at once; and
 * that pointers may be null where nothing is after them. It ends with 1 where something else is seen, and says what.
 */
#define _DEFAULT_SOURCE
#include "jri.h"

#include <pthread.h>
#include <stdatomic.h>
#include <stdio.h>
#include <stdlib.h>
#include <string.h>
#include <sys/mman.h>

enum { MORE = 100, FILL = 7, THREADS = 8, TIMES = 3, OF_TEXT = 64, REFUSALS = 19, PAGE = 65536, FORGED = 200 };

/* The given number of bytes after structs of 8 bytes, which also end at a page's end. */
enum { ALIGNED_MORE = 104 };

/* As many lines as a whole number of rows of MCUs has, whatever their height: 8, 16, 24 or 32. */
enum { WHOLE_ROWS = 96 };

/* The request for memory that is refused, counted from 0 in this thread; none where it is negative. */
static _Thread_local long refused = -1;
static _Thread_local long requests;

void *__real_malloc(size_t size);
void *__real_realloc(void *block, size_t size);

void *__wrap_malloc(size_t size) { return requests++ == refused ? NULL : __real_malloc(size); }

void *__wrap_realloc(void *block, size_t size) { return requests++ == refused ? NULL : __real_realloc(block, size); }

/* A file, whether it is resynchronised, and what a decoding of it gives. */
struct trial {
    const char *name;
    uint8_t *file;
    size_t length;
    uint32_t resync;
    struct jri_header header;
    struct jri_report report;
    uint32_t status;
    uint8_t *pixels, *marks;
};

static atomic_long wrong;
static long refusals;

static void see(int right, const struct trial *trial, const char *what) {
    if (!right) {
        printf("WRONG: %s: %s\n", trial->name, what);
        wrong++;
    }
}

/* The size of the whole pages that hold the given number of bytes. */
static size_t pages(size_t size) { return (size + PAGE - 1) / PAGE * PAGE; }

/* A buffer after whose end no byte can be read or written. */
static uint8_t *buffer(size_t size) {
    uint8_t *start = mmap(NULL, pages(size) + PAGE, PROT_READ | PROT_WRITE, MAP_PRIVATE | MAP_ANONYMOUS, -1, 0);
    if (start == MAP_FAILED || mprotect(start + pages(size), PAGE, PROT_NONE))
        abort();
    uint8_t *bytes = start + pages(size) - size;
    memset(bytes, FILL, size);
    return bytes;
}

static void release(uint8_t *bytes, size_t size) { munmap(bytes + size - pages(size), pages(size) + PAGE); }

static int is_filled(const uint8_t *bytes, size_t size) {
    for (size_t i = 0; i < size; i++)
        if (bytes[i] != FILL)
            return 0;
    return 1;
}

/* Decodes into buffers of so much space, while one request for memory is refused; it gives what it gave before, or answers this and touches neither. How many requests there were. */
static long decode(const struct trial *t, size_t pixels_size, size_t marks_size, uint32_t otherwise, long k, const char *what) {
    uint8_t *pixels = buffer(pixels_size), *marks = buffer(marks_size);
    struct jri_report report;
    size_t size = t->header.pixels, count = marks_size ? t->header.intervals : 0;
    requests = 0;
    refused = k;
    uint32_t status = jri_decode(t->file, t->length, t->resync, pixels, pixels_size, marks, marks_size, &report);
    long made = requests;
    refused = -1;
    if (status == t->status && otherwise != JRI_BUFFER_TOO_SMALL) {
        see(!memcmp(pixels, t->pixels, size) && is_filled(pixels + size, pixels_size - size), t, what);
        see(!memcmp(marks, t->marks, count) && is_filled(marks + count, marks_size - count), t, what);
        see(!memcmp(&report, &t->report, sizeof report), t, what);
    } else {
        see(status == otherwise && is_filled(pixels, pixels_size) && is_filled(marks, marks_size), t, what);
    }
    release(pixels, pixels_size);
    release(marks, marks_size);
    return made;
}

/* Refuses each request of a decoding in turn, and of a look at its head, until there are fewer. */
static void refuse(const struct trial *t) {
    for (long k = 0; decode(t, t->header.pixels, t->header.intervals, JRI_NO_MEMORY, k, "a request refused") > k; k++) {
        struct jri_header header;
        requests = 0;
        refused = k;
        uint32_t status = jri_read_header(t->file, t->length, JRI_COMPLETE, &header);
        refused = -1;
        int is_same = status == JRI_OK && !memcmp(&header, &t->header, sizeof header);
        int is_empty = !header.width && !header.height && !header.components && !header.scan_at;
        see(is_same || (requests > k && status == JRI_NO_MEMORY && is_empty), t, "a request of a header refused");
        refusals += 1;
    }
}

/* Reads the header of a file that arrives byte by byte: more are wanted, then it is that of the file. */
static void try_header(const struct trial *t) {
    static const struct jri_header NONE;
    struct jri_header header;
    uint32_t status = JRI_NEED_MORE;
    for (size_t length = 0; length <= t->length; length++) {
        uint32_t before = status;
        status = jri_read_header(t->file, length, JRI_PARTIAL, &header);
        const struct jri_header *expected = status == JRI_OK ? &t->header : &NONE;
        see(status == JRI_OK || (status == JRI_NEED_MORE && before == status), t, "a status of a header so far");
        see(!memcmp(&header, expected, sizeof header), t, "a header so far");
        if (status == JRI_OK && before == JRI_OK)
            length += t->length / 8;
    }
    see(status == JRI_OK, t, "a header that has not come");
}

static size_t line_of(const struct trial *t) { return t->header.pixels / t->header.height; }

/* Decodes lines into a buffer with more space than they take, while one request for memory is refused. How many requests there were. */
static long decode_lines(const struct trial *t, uint32_t first, uint32_t count, long k, struct jri_report *report) {
    size_t size = count * line_of(t);
    uint8_t *pixels = buffer(size + MORE);
    requests = 0;
    refused = k;
    uint32_t status = jri_decode_lines(t->file, t->length, t->resync, first, count, pixels, size + MORE, report);
    long made = requests;
    refused = -1;
    if (status == JRI_NO_MEMORY && made > k && k >= 0) {
        see(is_filled(pixels, size + MORE), t, "lines, a request refused");
    } else {
        see(status == (report->damaged ? JRI_DAMAGED : JRI_SOUND), t, "an answer to lines");
        see(!memcmp(pixels, t->pixels + first * line_of(t), size) && is_filled(pixels + size, MORE), t, "lines");
        see(report->intervals == t->report.intervals && report->ended == t->report.ended, t, "a report of lines");
    }
    release(pixels, size + MORE);
    return made;
}

/* Decodes all lines, `count` in a call: whole rows of MCUs have the counts of the whole picture. */
static void decode_by(const struct trial *t, uint32_t step) {
    uint32_t sound = 0, damaged = 0, height = t->header.height;
    for (uint32_t first = 0; first < height; first += step) {
        struct jri_report report;
        decode_lines(t, first, height - first < step ? height - first : step, -1, &report);
        sound += report.sound;
        damaged += report.damaged;
    }
    see(step % WHOLE_ROWS || (sound == t->report.sound && damaged == t->report.damaged), t, "the counts of all lines");
}

/* Asks for lines that the picture has not. */
static void no_lines(const struct trial *t, uint32_t first, uint32_t count) {
    uint8_t *pixels = buffer(t->header.pixels);
    struct jri_report report;
    see(jri_decode_lines(t->file, t->length, t->resync, first, count, pixels, t->header.pixels, &report) == JRI_NO_LINES, t, "no such lines");
    see(is_filled(pixels, t->header.pixels), t, "no such lines, a buffer touched");
    release(pixels, t->header.pixels);
}

static void try_lines(const struct trial *t) {
    uint32_t height = t->header.height;
    struct jri_report report;
    decode_by(t, 1);
    decode_by(t, 5);
    decode_by(t, WHOLE_ROWS);
    for (long k = 0; decode_lines(t, height / 2, 1, k, &report) > k; k++)
        refusals += 1;
    no_lines(t, 0, 0);
    no_lines(t, height, 1);
    no_lines(t, 0, height + 1);
    no_lines(t, height - 1, 2);
    no_lines(t, UINT32_MAX, UINT32_MAX);
    uint8_t *pixels = buffer(line_of(t) - 1);
    see(jri_decode_lines(t->file, t->length, t->resync, 0, 1, pixels, line_of(t) - 1, &report) == JRI_BUFFER_TOO_SMALL, t, "a byte of a line too few");
    see(is_filled(pixels, line_of(t) - 1), t, "a byte of a line too few, a buffer touched");
    release(pixels, line_of(t) - 1);
}

/* Checks into a buffer of so much space, while one request for memory is refused; it gives the marks and the report of the decoding, or answers this and touches nothing. How many requests there were. */
static long check(const struct trial *t, size_t space, uint32_t otherwise, long k, const char *what) {
    uint8_t *marks = buffer(space);
    struct jri_report report;
    size_t count = space ? t->header.intervals : 0;
    requests = 0;
    refused = k;
    uint32_t status = jri_check(t->file, t->length, t->resync, marks, space, &report);
    long made = requests;
    refused = -1;
    if (status == t->status && otherwise != JRI_BUFFER_TOO_SMALL) {
        see(!memcmp(marks, t->marks, count) && is_filled(marks + count, space - count), t, what);
        see(!memcmp(&report, &t->report, sizeof report), t, what);
    } else {
        see(status == otherwise && is_filled(marks, space), t, what);
    }
    release(marks, space);
    return made;
}

static void try_check(const struct trial *t) {
    size_t count = t->header.intervals;
    check(t, count + MORE, t->status, -1, "a check with more space");
    check(t, 0, t->status, -1, "a check without marks");
    if (count > 1)
        check(t, count - 1, JRI_BUFFER_TOO_SMALL, -1, "a check with a mark too few");
    for (long k = 0; check(t, count, JRI_NO_MEMORY, k, "a request of a check refused") > k; k++)
        refusals += 1;
}

/* Lists damage from a position on into a buffer of `space` entries, while request k for memory is refused. Returns the number of requests. */
static long list_damages(const struct trial *t, uint32_t first, uint64_t first_at, size_t space, long k, struct jri_damage_list *list) {
    size_t size = space * sizeof(struct jri_damage);
    uint8_t *bytes = buffer(size + ALIGNED_MORE);
    struct jri_damage *damages = (struct jri_damage *)bytes;
    requests = 0;
    refused = k;
    uint32_t status = jri_list_damage(t->file, t->length, JRI_COMPLETE, first, first_at, damages, space, list);
    long made = requests;
    refused = -1;
    if (status == JRI_NO_MEMORY && made > k && k >= 0) {
        see(is_filled(bytes, size) && !list->count && list->refusal == 19, t, "damage, a request refused");
    } else {
        see(status == (list->count ? JRI_DAMAGED : JRI_SOUND) && list->count <= space, t, "an answer to damage");
        see(list->count == space || list->next == t->header.intervals, t, "entries left");
        for (uint32_t i = 0; i < list->count; i++) {
            see(first <= damages[i].interval && damages[i].interval < list->next, t, "an interval of damage");
            see(damages[i].last_line < t->header.height && damages[i].end <= t->length, t, "numbers of damage");
        }
        see(is_filled(bytes + list->count * sizeof *damages, size - list->count * sizeof *damages), t, "after the damage");
    }
    release(bytes, size + ALIGNED_MORE);
    return made;
}

/* Sees that a list in parts of the given number of entries has each damaged interval and no other. */
static void list_parts(const struct trial *t, size_t space) {
    struct jri_damage_list list = {0};
    struct jri_damage damages[3];
    uint32_t all = 0;
    while (jri_list_damage(t->file, t->length, JRI_COMPLETE, list.next, list.next_at, damages, space, &list) == JRI_DAMAGED)
        for (uint32_t i = 0; i < list.count; i++, all++)
            see(t->marks[damages[i].interval] == JRI_MARK_DAMAGED, t, "damage that is none");
    see(all == t->report.damaged && list.next == t->header.intervals, t, "all damage");
}

/* Sees that lists of a file that arrives in the given number of parts have each damaged interval once, as the list of the whole file has it. */
static void list_arriving(const struct trial *t, size_t parts) {
    struct jri_damage_list list = {0}, wholly = {0};
    struct jri_damage found, expected;
    uint32_t all = 0;
    for (size_t k = 1; k <= parts + 1; k++) {
        uint32_t more = k <= parts ? JRI_PARTIAL : JRI_COMPLETE, status;
        size_t length = k < parts ? t->length * k / parts : t->length;
        uint8_t *come = buffer(length);
        memcpy(come, t->file, length);
        while ((status = jri_list_damage(come, length, more, list.next, list.next_at, &found, 1, &list)) == JRI_DAMAGED) {
            jri_list_damage(t->file, t->length, JRI_COMPLETE, wholly.next, wholly.next_at, &expected, 1, &wholly);
            see(!memcmp(&found, &expected, sizeof found), t, "damage of a file that arrives");
            all++;
        }
        see(status == JRI_SOUND || (status == JRI_NEED_MORE && more && !list.next && !list.refusal), t, "an answer to damage that arrives");
        release(come, length);
    }
    see(all == t->report.damaged && list.next == t->header.intervals, t, "all damage that arrives");
}

static void try_damages(const struct trial *t) {
    struct jri_damage_list list = {0};
    list_parts(t, 1);
    list_parts(t, 3);
    list_arriving(t, 1);
    list_arriving(t, 7);
    list_damages(t, UINT32_MAX, UINT64_MAX, 1, -1, &list);
    list_damages(t, 0, 0, 0, -1, &list);
    list_damages(t, t->header.intervals / 2, t->length / 2, 2, -1, &list);
    list_damages(t, 0, t->length - 1, 2, -1, &list);
    for (long k = 0; list_damages(t, 0, 0, 2, k, &list) > k; k++)
        refusals += 1;
}

/* Decodes rows from a place on, into a buffer for the given number of lines whose other bytes stay, while one request for memory is refused. How many requests there were. */
static long decode_rows(const struct trial *t, size_t length, uint32_t more, struct jri_position *place, uint32_t rows, size_t lines, long k, struct jri_rows *report) {
    size_t space = lines * line_of(t);
    uint8_t *pixels = buffer(space);
    struct jri_position before = *place;
    requests = 0;
    refused = k;
    uint32_t status = jri_decode_rows(t->file, length, more, place, rows, pixels, space, report);
    long made = requests;
    refused = -1;
    if (status == JRI_OK) {
        size_t size = report->lines * line_of(t);
        see(size <= space && report->first_line + report->lines <= t->header.height, t, "rows, too many lines");
        see(!memcmp(pixels, t->pixels + report->first_line * line_of(t), size), t, "rows, other lines");
        see(is_filled(pixels + size, space - size), t, "rows, bytes after them");
        see(place->row == before.row + report->rows && report->rows <= rows, t, "rows, another place");
    } else {
        int is_kept = is_filled(pixels, space) && !memcmp(place, &before, sizeof before) && !report->rows && !report->lines;
        see(is_kept && (status == JRI_NO_LINES || (status == JRI_NO_MEMORY && made > k && k >= 0)), t, "rows that are none");
    }
    release(pixels, space);
    return made;
}

/* Decodes all rows of a file that is there, the given number at a time. */
static void rows_by(const struct trial *t, uint32_t rows) {
    struct jri_position place = {0};
    struct jri_rows report;
    uint32_t lines = 0;
    do {
        decode_rows(t, t->length, JRI_COMPLETE, &place, rows, WHOLE_ROWS, -1, &report);
        see(!report.rows || report.first_line == lines, t, "rows, lines left out");
        lines += report.lines;
    } while (report.rows);
    see(lines == t->header.height, t, "rows, not all lines");
}

/* Decodes a file that arrives in parts of the given number of bytes, and its last rows once it is there. */
static void rows_arriving(const struct trial *t, size_t part) {
    struct jri_position place = {0};
    struct jri_rows report;
    uint32_t lines = 0;
    for (size_t length = 0; length < t->length + part; length += part) {
        size_t there = length < t->length ? length : t->length;
        uint8_t *pixels = buffer(t->header.pixels);
        uint32_t status = jri_decode_rows(t->file, there, JRI_PARTIAL, &place, UINT32_MAX, pixels, t->header.pixels, &report);
        see(status == JRI_OK || status == JRI_NO_LINES, t, "rows so far");
        see(!memcmp(pixels, t->pixels + report.first_line * line_of(t), report.lines * line_of(t)), t, "rows so far, other lines");
        see(!report.rows || report.first_line == lines, t, "rows so far, lines left out");
        lines += report.lines;
        release(pixels, t->header.pixels);
    }
    if (lines < t->header.height) {
        decode_rows(t, t->length, JRI_COMPLETE, &place, UINT32_MAX, t->header.height, -1, &report);
        lines += report.lines;
    }
    see(lines == t->header.height, t, "rows so far, not all lines");
}

/* Makes an index, and decodes each row from its place; where a request is refused, nothing is moved. */
static void rows_by_index(const struct trial *t) {
    struct jri_position place = {0}, decoded = {0}, next;
    struct jri_rows report, passed;
    while (jri_skip_rows(t->file, t->length, JRI_COMPLETE, (next = place, &next), 1, &passed) == JRI_OK) {
        see(passed.rows == 1, t, "rows passed over");
        decoded = place;
        decode_rows(t, t->length, JRI_COMPLETE, &decoded, 1, WHOLE_ROWS, -1, &report);
        see(!memcmp(&decoded, &next, sizeof next), t, "a place by passing over rows");
        see(report.lines == passed.lines && report.first_line == passed.first_line, t, "lines passed over");
        place = next;
    }
    see(passed.refusal == 0 && !passed.rows && place.row, t, "rows after the last");
    for (long k = 0, made = 1; made > k; k++, refusals++) {
        struct jri_position from = {0};
        made = decode_rows(t, t->length, JRI_COMPLETE, &from, 1, WHOLE_ROWS, k, &report);
        from = (struct jri_position){0};
        requests = 0;
        refused = k;
        uint32_t status = jri_skip_rows(t->file, t->length, JRI_COMPLETE, &from, 1, &passed);
        refused = -1;
        see(status == JRI_OK || (status == JRI_NO_MEMORY && requests > k && !from.row), t, "a request of rows passed over refused");
    }
}

/* The number of the file's first bytes that have the header, as it says itself: one byte fewer is too few. */
static size_t header_length(const struct trial *t) {
    struct jri_header header;
    size_t length = t->header.scan_at;
    see(jri_read_header(t->file, length, JRI_PARTIAL, &header) == JRI_OK, t, "a header's length");
    see(jri_read_header(t->file, length - 1, JRI_PARTIAL, &header) == JRI_NEED_MORE, t, "a header without its last byte");
    return length;
}

/* A copy of a part of the file, after whose end no byte can be read. */
static uint8_t *part_of(const struct trial *t, size_t from, size_t length) {
    uint8_t *part = buffer(length);
    memcpy(part, t->file + from, length);
    return part;
}

/* Decodes and skips two rows of a window, with one request for memory refused. Returns the status. */
static uint32_t decode_window(const struct trial *t, size_t header, size_t from, size_t length, struct jri_position *place, long k, struct jri_rows *report) {
    uint8_t *head = part_of(t, 0, header), *window = part_of(t, from, length);
    uint32_t more = from + length < t->length ? JRI_PARTIAL : JRI_COMPLETE;
    size_t space = WHOLE_ROWS * line_of(t);
    uint8_t *pixels = buffer(space);
    struct jri_position before = *place, skipped = *place;
    struct jri_rows passed;
    requests = 0;
    refused = k;
    uint32_t status = jri_decode_window(head, header, window, length, from, more, place, 2, pixels, space, report);
    refused = -1;
    size_t size = report->lines * line_of(t);
    see(!memcmp(pixels, t->pixels + report->first_line * line_of(t), size), t, "a window, other lines");
    see(is_filled(pixels + size, space - size), t, "a window, bytes after the lines");
    see(status == JRI_OK || (!report->rows && !memcmp(place, &before, sizeof before)), t, "a window, a position moved without rows");
    if (status != JRI_NO_MEMORY) {
        see(jri_skip_window(head, header, window, length, from, more, &skipped, 2, &passed) == status, t, "a window skipped");
        see(!memcmp(&skipped, place, sizeof skipped) && !memcmp(&passed, report, sizeof passed), t, "a position after a window skipped");
    }
    release(head, header);
    release(window, length);
    release(pixels, space);
    return status;
}

/* Decodes a file by windows of the given size, the first after the header; one without a row that is final is doubled. */
static void rows_by_window(const struct trial *t, size_t header, size_t size) {
    struct jri_position place = {0};
    struct jri_rows report;
    uint32_t lines = 0, status = JRI_OK;
    for (size_t from = header, length = size; status == JRI_OK && lines < t->header.height; from = place.at > from ? place.at : from) {
        size_t there = length < t->length - from ? length : t->length - from;
        status = decode_window(t, header, from, there, &place, -1, &report);
        see(status == JRI_OK && (!report.rows || report.first_line == lines), t, "rows of a window");
        lines += report.lines;
        length = report.rows ? size : 2 * length;
    }
    see(lines == t->header.height, t, "rows of windows, not all lines");
}

/* Windows without the position, without the header, without space, and with each request for memory refused. */
static void try_windows(const struct trial *t) {
    size_t header = header_length(t);
    static const size_t SIZES[] = {1, 100, 5000};
    for (size_t i = 0; i < sizeof SIZES / sizeof *SIZES; i++)
        rows_by_window(t, header, SIZES[i]);
    rows_by_window(t, header, t->length);
    struct jri_position top = {0}, place = {0};
    struct jri_rows report;
    see(decode_window(t, header, header, t->length - header, &top, -1, &report) == JRI_OK && report.rows, t, "a window that begins with the scan");
    top = place;
    if (header < t->length)
        see(decode_window(t, header, header + 1, t->length - header - 1, &top, -1, &report) == JRI_NOT_IN_WINDOW, t, "a window after the position");
    see(decode_window(t, header, 0, header - 1, &top, -1, &report) == JRI_NOT_IN_WINDOW, t, "a window before the position");
    see(decode_window(t, header, 0, header, &top, -1, &report) == JRI_OK && (header == t->length || !report.rows), t, "a window that ends at the position");
    top = place;
    see(jri_decode_window(t->file, header - 1, t->file, t->length, 0, JRI_PARTIAL, &top, 1, NULL, 0, &report) == JRI_OK && !report.rows, t, "a window without a header so far");
    see(jri_decode_window(t->file, header - 1, t->file, t->length, 0, JRI_COMPLETE, &top, 1, NULL, 0, &report) == JRI_REFUSED && report.refusal == 2, t, "a window without a header");
    see(jri_decode_window(t->file, header, t->file, t->length, 0, JRI_COMPLETE, &top, 1, NULL, 0, &report) == JRI_BUFFER_TOO_SMALL, t, "a window without space");
    see(jri_decode_window(t->file, header, t->file, t->length, 0, JRI_COMPLETE, &top, 0, NULL, 0, &report) == JRI_NO_LINES, t, "a window, no row asked for");
    see(!memcmp(&top, &place, sizeof top), t, "a position that windows leave");
    for (long k = 0; decode_window(t, header, 0, t->length, &top, k, &report) == JRI_NO_MEMORY; k++, refusals++)
        see(!report.rows && report.refusal == 19, t, "a window, a request refused");
}

/* Numbers that are no place's, by turns. */
static uint32_t forged(uint32_t *seed) {
    static const uint32_t SOME[] = {0, 1, 7, 8, 255, 65535, 32768, 0x7FFFFFFF, 0x80000000, UINT32_MAX};
    *seed = *seed * 1664525 + 1013904223;
    return *seed >> 31 ? SOME[(*seed >> 8) % (sizeof SOME / sizeof *SOME)] : *seed >> 8 & 15;
}

/* Gives places that no call gave, of which some numbers are a true one's: no byte outside of the buffers is read or written. */
static void forge(const struct trial *t, const struct jri_position *like, uint32_t seed) {
    struct jri_position place = *like;
    struct jri_rows report;
    place.at = forged(&seed) & 1 ? (uint64_t)forged(&seed) << (forged(&seed) & 31) : like->at + forged(&seed);
    place.bit = forged(&seed);
    for (int c = 0; c < 3; c++)
        place.predictions[c] = (int32_t)forged(&seed);
    place.state = forged(&seed) & 3;
    if (!(forged(&seed) & 3))
        place.row = forged(&seed), place.interval = forged(&seed), place.mcu = forged(&seed);
    size_t space = WHOLE_ROWS * line_of(t);
    uint8_t *pixels = buffer(space);
    struct jri_position passed = place;
    uint32_t more = forged(&seed) & 1;
    uint32_t status = jri_decode_rows(t->file, t->length, more, &place, 2, pixels, space, &report);
    see(status == JRI_OK || status == JRI_NO_LINES, t, "a forged place");
    see(is_filled(pixels + report.lines * line_of(t), space - report.lines * line_of(t)), t, "a forged position, bytes after the lines");
    see(jri_skip_rows(t->file, t->length, more, &passed, 2, &report) == status && !memcmp(&passed, &place, sizeof place), t, "a forged place passed over");
    uint64_t at = forged(&seed) & 1 ? like->at + forged(&seed) : UINT64_MAX - forged(&seed);
    memset(pixels, FILL, space);
    status = jri_decode_window(t->file, t->length, t->file, t->length, at, more, &place, 2, pixels, space, &report);
    see(status == JRI_OK || status == JRI_NO_LINES || status == JRI_NOT_IN_WINDOW, t, "a forged window");
    see(is_filled(pixels + report.lines * line_of(t), space - report.lines * line_of(t)), t, "a forged window, bytes after the lines");
    release(pixels, space);
}

static void try_rows(const struct trial *t) {
    struct jri_position place = {0};
    struct jri_rows report;
    rows_by(t, 1);
    rows_by(t, 2);
    rows_by(t, UINT32_MAX);
    rows_arriving(t, 1 + t->length / 50);
    rows_by_index(t);
    for (uint32_t seed = 0; seed < FORGED; seed++) {
        forge(t, &place, seed + (uint32_t)t->length * FORGED);
        if (!(seed % 16) && jri_skip_rows(t->file, t->length, JRI_COMPLETE, &place, 1, &report) != JRI_OK)
            place = (struct jri_position){0};
    }
    place = (struct jri_position){0};
    uint8_t *pixels = buffer(line_of(t));
    see(jri_decode_rows(t->file, t->length, JRI_COMPLETE, &place, 0, pixels, line_of(t), &report) == JRI_NO_LINES, t, "no row asked for");
    see(jri_decode_rows(t->file, t->length, JRI_COMPLETE, &place, 1, pixels, line_of(t) - 1, &report) == JRI_BUFFER_TOO_SMALL, t, "no space for a row");
    see(is_filled(pixels, line_of(t)) && !place.row, t, "no space for a row, a buffer touched");
    release(pixels, line_of(t));
}

static void *work(void *argument) {
    const struct trial *t = argument;
    for (int i = 0; i < TIMES; i++) {
        check(t, t->header.intervals, t->status, -1, "a check next to other threads");
        decode(t, t->header.pixels, t->header.intervals, t->status, -1, "next to other threads");
        rows_by(t, 3);
    }
    return NULL;
}

static void work_at_once(struct trial *t) {
    pthread_t threads[THREADS];
    for (int i = 0; i < THREADS; i++)
        if (pthread_create(&threads[i], NULL, work, t))
            abort();
    for (int i = 0; i < THREADS; i++)
        pthread_join(threads[i], NULL);
}

/* Resynchronises a file into buffers of the given numbers of bytes and entries, while request k for memory is refused. Returns the number of requests. */
static long resynchronise(const struct trial *t, size_t size, size_t count, long k, struct jri_resynced *report) {
    size_t listed = count * sizeof(struct jri_break);
    uint8_t *out = buffer(size), *bytes = buffer(listed + ALIGNED_MORE);
    struct jri_break *breaks = (struct jri_break *)bytes;
    struct jri_resynced whole = *report;
    requests = 0;
    refused = k;
    uint32_t status = jri_resynchronise(t->file, t->length, out, size, breaks, count, report);
    long made = requests;
    refused = -1;
    size_t found = whole.breaks < count ? whole.breaks : count;
    if (status == JRI_OK) {
        struct jri_report decoded;
        see(report->size <= size && is_filled(out + report->size, size - report->size), t, "after a resynchronised file");
        see(is_filled(bytes + found * sizeof *breaks, listed - found * sizeof *breaks), t, "after the breaks");
        for (size_t i = 0; i < found; i++)
            see(breaks[i].at < t->length && breaks[i].due < 8 && (!i || breaks[i - 1].at < breaks[i].at), t, "a break");
        see(jri_check(out, report->size, JRI_AS_IS, NULL, 0, &decoded) <= JRI_DAMAGED && decoded.ended == JRI_END_OF_IMAGE, t, "a resynchronised file");
        see(whole.breaks || decoded.damaged <= t->report.damaged, t, "a file in step");
    } else {
        see(status == (size < whole.size ? JRI_BUFFER_TOO_SMALL : JRI_NO_MEMORY) || (status == JRI_NO_MEMORY && made > k), t, "a status of resynchronising");
        see(is_filled(out, size) && is_filled(bytes, listed), t, "not resynchronised, a buffer touched");
    }
    if (status == JRI_NO_MEMORY)
        see(k >= 0 && made > k && report->refusal == 19 && !report->size && !report->breaks, t, "resynchronising, a request refused");
    else
        see(!memcmp(report, &whole, sizeof whole), t, "a report of resynchronising");
    *report = whole;
    release(out, size);
    release(bytes, listed + ALIGNED_MORE);
    return made;
}

static void try_resynchronise(const struct trial *t) {
    struct jri_resynced report;
    see(jri_resynchronise(t->file, t->length, NULL, 0, NULL, 0, &report) == JRI_BUFFER_TOO_SMALL, t, "no space to resynchronise");
    see(report.size <= t->length + 2 * (size_t)t->header.intervals, t, "a resynchronised file's size");
    resynchronise(t, report.size, report.breaks, -1, &report);
    resynchronise(t, report.size + MORE, report.breaks + 3, -1, &report);
    resynchronise(t, report.size, report.breaks / 2, -1, &report);
    resynchronise(t, report.size - 1, report.breaks, -1, &report);
    for (long k = 0; resynchronise(t, report.size, report.breaks, k, &report) > k; k++)
        refusals += 1;
}

/* Two copies of a file that lie one after another, the second with no byte of its scan. */
struct copies {
    uint8_t *files;
    size_t length, sizes[2];
};

/* Mends copies into buffers of the given numbers of bytes and entries, while request k for memory is refused. Returns the number of requests. */
static long mend(const struct trial *t, const struct copies *it, size_t size, size_t count, long k, struct jri_mended *report) {
    size_t listed = count * sizeof(struct jri_choice);
    uint8_t *out = buffer(size), *bytes = buffer(listed + ALIGNED_MORE);
    struct jri_choice *choices = (struct jri_choice *)bytes;
    struct jri_mended whole = *report;
    requests = 0;
    refused = k;
    uint32_t status = jri_mend(it->files, it->length, it->sizes, 2, out, size, choices, count, report);
    long made = requests;
    refused = -1;
    size_t found = t->header.intervals < count ? t->header.intervals : count;
    if (status == t->status) {
        struct jri_report decoded;
        uint8_t *marks = buffer(t->header.intervals);
        see(is_filled(out + report->size, size - report->size), t, "after a mended file");
        see(is_filled(bytes + found * sizeof *choices, listed - found * sizeof *choices), t, "after the choices");
        for (size_t i = 0; i < found; i++)
            see(choices[i].mark == t->marks[i] && !choices[i].differs && (choices[i].mark != JRI_MARK_SOUND || !choices[i].copy), t, "a choice");
        see(jri_check(out, report->size, JRI_AS_IS, marks, t->header.intervals, &decoded) == t->status, t, "a mended file");
        see(!memcmp(marks, t->marks, t->header.intervals) && decoded.damaged == report->damaged, t, "a mended file's marks");
        release(marks, t->header.intervals);
    } else {
        see(status == JRI_NO_MEMORY || (status == JRI_BUFFER_TOO_SMALL && size < whole.size), t, "a status of mending");
        see(is_filled(out, size) && is_filled(bytes, listed), t, "not mended, a buffer touched");
    }
    if (status == JRI_NO_MEMORY)
        see(k >= 0 && made > k && report->refusal == 19 && !report->size && !report->intervals, t, "mending, a request refused");
    else
        see(!memcmp(report, &whole, sizeof whole), t, "a report of mending");
    *report = whole;
    release(out, size);
    release(bytes, listed + ALIGNED_MORE);
    return made;
}

/* Mends a file from itself and a copy that ends with its first byte after SOS. */
static void try_mend(const struct trial *t) {
    struct jri_damage_list list;
    struct jri_damage none;
    jri_list_damage(t->file, t->length, JRI_COMPLETE, 0, 0, &none, 0, &list);
    size_t scan_at = list.next_at, sizes[65];
    struct copies it = {.length = t->length + scan_at, .sizes = {t->length, scan_at}};
    it.files = buffer(it.length);
    memcpy(it.files, t->file, t->length);
    memcpy(it.files + t->length, t->file, scan_at);
    struct jri_mended report;
    see(jri_mend(it.files, it.length, it.sizes, 2, NULL, 0, NULL, 0, &report) == JRI_BUFFER_TOO_SMALL, t, "no space to mend");
    see(report.intervals == t->header.intervals && report.damaged == t->report.damaged, t, "a report of mending without space");
    mend(t, &it, report.size, report.intervals, -1, &report);
    mend(t, &it, report.size + MORE, report.intervals + 3, -1, &report);
    mend(t, &it, report.size, report.intervals / 2, -1, &report);
    mend(t, &it, report.size - 1, report.intervals, -1, &report);
    for (long k = 0; mend(t, &it, report.size, report.intervals, k, &report) > k; k++)
        refusals += 1;
    see(jri_mend(it.files, it.length - 1, it.sizes, 2, NULL, 0, NULL, 0, &report) == JRI_NO_COPIES, t, "copies of more bytes than there are");
    memset(sizes, 0, sizeof sizes);
    see(jri_mend(it.files, it.length, sizes, 65, NULL, 0, NULL, 0, &report) == JRI_NO_COPIES, t, "too many copies");
    it.sizes[1] = 2;
    see(jri_mend(it.files, it.length, it.sizes, 2, NULL, 0, NULL, 0, &report) == JRI_REFUSED && report.copy == 1 && report.refusal == 2, t, "a copy that is refused");
    release(it.files, it.length);
}

/* The bytes of a pixel in a layout. How many they are. */
static size_t lay(uint32_t layout, const uint8_t *from, uint32_t components, uint8_t *to) {
    const uint8_t *red = from, *green = from + (components == 3), *blue = from + (components == 3 ? 2 : 0);
    int turned = layout == JRI_BGR24 || layout == JRI_BGRX32;
    if (layout == JRI_PLAIN) {
        memcpy(to, from, components);
        return components;
    }
    to[0] = turned ? *blue : *red;
    to[1] = *green;
    to[2] = turned ? *red : *blue;
    to[3] = 255;
    return layout >= JRI_RGBX32 ? 4 : 3;
}

/* Whether a canvas has the picture in a layout, and after each line but the last what it had before. */
static int has_picture(const struct trial *t, const uint8_t *canvas, size_t stride, size_t size, uint32_t layout) {
    for (uint32_t y = 0; y < t->header.height; y++) {
        const uint8_t *line = canvas + y * stride, *from = t->pixels + y * line_of(t);
        uint8_t pixel[4];
        for (uint32_t x = 0; x < t->header.width; x++) {
            size_t bytes = lay(layout, from + x * t->header.components, t->header.components, pixel);
            if (memcmp(line + x * bytes, pixel, bytes))
                return 0;
        }
        if (y + 1 < t->header.height && !is_filled(line + size, stride - size))
            return 0;
    }
    return 1;
}

/* Decodes onto a canvas of each layout that ends with its last line, and lays the picture out onto another. */
static void try_canvas(const struct trial *t) {
    for (uint32_t layout = JRI_PLAIN; layout <= JRI_BGRX32; layout++) {
        uint8_t pixel[4];
        size_t size = t->header.width * lay(layout, t->pixels, t->header.components, pixel), stride = size + 5;
        size_t space = (t->header.height - 1) * stride + size;
        uint8_t *canvas = buffer(space), *other = buffer(space);
        struct jri_report report;
        see(jri_decode_canvas(t->file, t->length, t->resync, canvas, space - 1, stride, layout, NULL, 0, &report) == JRI_BUFFER_TOO_SMALL &&
            is_filled(canvas, space), t, "a canvas without space");
        see(jri_decode_canvas(t->file, t->length, t->resync, canvas, space, size - 1, layout, NULL, 0, &report) == JRI_NO_LAYOUT &&
            is_filled(canvas, space), t, "a stride that is too short");
        see(jri_decode_canvas(t->file, t->length, t->resync, canvas, space, stride, layout, NULL, 0, &report) == t->status &&
            !memcmp(&report, &t->report, sizeof report) && has_picture(t, canvas, stride, size, layout), t, "a canvas");
        see(jri_lay_out(t->pixels, t->header.pixels, t->header.width, t->header.components, other, space - 1, stride, layout) ==
            JRI_BUFFER_TOO_SMALL && is_filled(other, space), t, "no space for lines");
        see(jri_lay_out(t->pixels, t->header.pixels, t->header.width, t->header.components, other, space, stride, layout) ==
            JRI_OK && !memcmp(canvas, other, space), t, "lines laid out");
        release(canvas, space);
        release(other, space);
    }
    struct jri_report report;
    see(jri_decode_canvas(t->file, t->length, t->resync, NULL, 0, 300000, 5, NULL, 0, &report) == JRI_NO_LAYOUT, t, "no layout");
}

/* Tries the calls that decode or check a whole file. */
static void try_image(const struct trial *t) {
    size_t size = t->header.pixels, count = t->header.intervals;
    decode(t, size + MORE, count + MORE, t->status, -1, "more space");
    decode(t, size, 0, t->status, -1, "no marks asked for");
    decode(t, size - 1, count, JRI_BUFFER_TOO_SMALL, -1, "a pixel's byte too few");
    if (count > 1)
        decode(t, size, count - 1, JRI_BUFFER_TOO_SMALL, -1, "a mark too few");
    refuse(t);
    try_lines(t);
    try_check(t);
    try_canvas(t);
}

/* Tries these calls with JRI_RESYNC: they return what they return for the file that jri_resynchronise writes. */
static void try_resynced(const struct trial *t) {
    struct trial it = *t;
    struct jri_resynced report;
    size_t size = t->length + 2 * (size_t)t->header.intervals;
    uint8_t *out = buffer(size);
    see(jri_resynchronise(t->file, t->length, out, size, NULL, 0, &report) == JRI_OK, t, "a resynchronised file");
    it.resync = JRI_RESYNC;
    it.pixels = buffer(t->header.pixels);
    it.marks = buffer(t->header.intervals);
    it.status = jri_decode(out, report.size, JRI_AS_IS, it.pixels, t->header.pixels, it.marks, t->header.intervals, &it.report);
    see(it.status <= JRI_DAMAGED && it.report.ended == JRI_END_OF_IMAGE, t, "the image of a resynchronised file");
    try_image(&it);
    release(out, size);
    release(it.pixels, t->header.pixels);
    release(it.marks, t->header.intervals);
}

static void try_null(void) {
    static const char BUILD[] = "jri " JRI_RELEASE " ";
    struct trial none = {.name = "null pointers"};
    uint8_t text[OF_TEXT];
    see(jri_version() == JRI_VERSION, &none, "the version");
    see(jri_read_header(NULL, 0, JRI_COMPLETE, &none.header) == JRI_REFUSED && none.header.refusal == 1, &none, "a header");
    see(jri_read_header(NULL, 0, JRI_PARTIAL, &none.header) == JRI_NEED_MORE && !none.header.refusal, &none, "a header of nothing yet");
    see(jri_decode(NULL, 0, JRI_AS_IS, NULL, 0, NULL, 0, &none.report) == JRI_REFUSED && none.report.refusal == 1, &none, "a decoding");
    see(jri_decode_lines(NULL, 0, JRI_AS_IS, 0, 1, NULL, 0, &none.report) == JRI_REFUSED && none.report.refusal == 1, &none, "lines");
    see(jri_check(NULL, 0, JRI_AS_IS, NULL, 0, &none.report) == JRI_REFUSED && none.report.refusal == 1, &none, "a check");
    struct jri_position place = {0};
    struct jri_rows rows;
    see(jri_decode_rows(NULL, 0, JRI_COMPLETE, &place, 1, NULL, 0, &rows) == JRI_REFUSED && rows.refusal == 1, &none, "rows");
    see(jri_decode_rows(NULL, 0, JRI_PARTIAL, &place, 1, NULL, 0, &rows) == JRI_OK && !rows.rows, &none, "rows of nothing yet");
    see(jri_skip_rows(NULL, 0, JRI_COMPLETE, &place, 1, &rows) == JRI_REFUSED && rows.refusal == 1, &none, "rows passed over");
    see(jri_decode_window(NULL, 0, NULL, 0, 0, JRI_COMPLETE, &place, 1, NULL, 0, &rows) == JRI_REFUSED && rows.refusal == 1, &none, "a window");
    see(jri_decode_window(NULL, 0, NULL, 0, 0, JRI_PARTIAL, &place, 1, NULL, 0, &rows) == JRI_OK && !rows.rows, &none, "a window of nothing yet");
    see(jri_skip_window(NULL, 0, NULL, 0, 0, JRI_COMPLETE, &place, 1, &rows) == JRI_REFUSED && rows.refusal == 1, &none, "a window skipped");
    see(jri_refusal_text(1, 0, NULL, 0) == 0 && jri_refusal_text(0, 0, text, OF_TEXT) == 0, &none, "a text");
    see(jri_refusal_text(20, 0, text, OF_TEXT) == 0, &none, "a number past the last");
    see(jri_refusal_text(3, 18446744073709551615u, text, OF_TEXT) == 46, &none, "a long text");
    see(!memcmp(text, "expected a marker at byte 18446744073709551615", 46), &none, "a long text's words");
    see(jri_refusal_text(1, 0, text, 5) == 5 && !memcmp(text, "not ated a marker", 17), &none, "a text without space");
    struct jri_damage_list list;
    see(jri_list_damage(NULL, 0, JRI_COMPLETE, 0, 0, NULL, 0, &list) == JRI_REFUSED && list.refusal == 1, &none, "damage");
    see(jri_list_damage(NULL, 0, JRI_PARTIAL, 0, 0, NULL, 0, &list) == JRI_NEED_MORE && !list.refusal, &none, "damage of nothing yet");
    struct jri_resynced resynced;
    see(jri_resynchronise(NULL, 0, NULL, 0, NULL, 0, &resynced) == JRI_REFUSED && resynced.refusal == 1, &none, "resynchronising");
    struct jri_mended mended;
    see(jri_mend(NULL, 0, NULL, 0, NULL, 0, NULL, 0, &mended) == JRI_NO_COPIES && !mended.refusal, &none, "no copies");
    see(jri_end_text(&none.report, text, OF_TEXT) == 0, &none, "a text of no end");
    none.report.ended = JRI_END_OF_IMAGE;
    see(jri_end_text(&none.report, text, OF_TEXT) == 17 && !memcmp(text, "scan ended at EOI", 17), &none, "a text of an end");
    see(jri_build_text(text, OF_TEXT) > sizeof BUILD && !memcmp(text, BUILD, sizeof BUILD - 1), &none, "a text of the build");
    uint8_t long_text[OF_TEXT + MORE];
    for (uint32_t refusal = 1; refusal <= REFUSALS; refusal++)
        see(jri_refusal_text(refusal, UINT64_MAX, long_text, sizeof long_text) <= OF_TEXT, &none, "a text of more than 64 bytes");
}

static void read_file(struct trial *t) {
    FILE *stream = fopen(t->name, "rb");
    if (!stream)
        abort();
    fseek(stream, 0, SEEK_END);
    t->length = (size_t)ftell(stream);
    rewind(stream);
    t->file = buffer(t->length);
    if (fread(t->file, 1, t->length, stream) != t->length)
        abort();
    fclose(stream);
}

static void try_file(const char *name) {
    struct trial t = {.name = name};
    read_file(&t);
    see(jri_read_header(t.file, t.length, JRI_COMPLETE, &t.header) == JRI_OK, &t, "is not accepted");
    size_t size = t.header.pixels, count = t.header.intervals;
    t.pixels = buffer(size);
    t.marks = buffer(count);
    t.status = jri_decode(t.file, t.length, JRI_AS_IS, t.pixels, size, t.marks, count, &t.report);
    see(t.status == JRI_SOUND || t.status == JRI_DAMAGED, &t, "is not decoded");
    see(jri_decode(t.file, t.length, JRI_AS_IS, NULL, 0, NULL, 0, &t.report) == JRI_BUFFER_TOO_SMALL, &t, "no space at all");
    jri_decode(t.file, t.length, JRI_AS_IS, t.pixels, size, t.marks, count, &t.report);
    try_image(&t);
    try_header(&t);
    try_damages(&t);
    try_resynchronise(&t);
    try_resynced(&t);
    try_mend(&t);
    try_rows(&t);
    try_windows(&t);
    work_at_once(&t);
    release(t.file, t.length);
    release(t.pixels, size);
    release(t.marks, count);
}

int main(int argc, char **argv) {
    try_null();
    for (int i = 1; i < argc; i++)
        try_file(argv[i]);
    printf("%d files, %ld requests refused, %ld wrong\n", argc - 1, refusals, (long)wrong);
    return wrong != 0;
}
