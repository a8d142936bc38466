/*
 * libjri: a decoder of baseline JPEG files (ITU-T T.81 | ISO/IEC 10918-1) in memory.
 *
 * It is written in Rattle. "Proved" below is a contract that the prover has accepted for every input; "Tested" is in
 * no contract, and a test or tools/check-library shows it. docs/C.md has examples.
 *
 * Proved for all calls: each returns, whatever the bytes, and touches only its buffers and structs; none starts a
 * thread, waits, or keeps anything, so all may run at once in any threads, on buffers of their own.
 * Tested: they use memory by malloc, realloc and free alone, free all of it, and use at most 192 KB of stack; give a
 * thread that calls 256 KB.
 *
 * Callers ensure that pointers lead to as many bytes as their lengths say, that the buffers of one call do not
 * overlap, that no other thread writes to them during the call, and that no call is made from a signal handler. A
 * buffer of length 0 may be NULL, a struct may not.
 *
 * In what follows: JRI_REFUSED comes with the file's first fault in the refusal's two numbers, JRI_NO_MEMORY with
 * refusal 19 (tested: only if memory ran out). With every status but JRI_OK, JRI_SOUND and JRI_DAMAGED all buffers are
 * unchanged. "Every file that begins with these bytes" means every one that is not too long (refusal 18).
 */
#ifndef JRI_H
#define JRI_H

#include <stddef.h>
#include <stdint.h>

#ifdef __cplusplus
extern "C" {
#endif

/* The version of jri: of the header, library, programs, packages and Python module. */
#define JRI_RELEASE "0.1.0"

/* The number of this interface; jri_version() returns that of the library. */
#define JRI_VERSION 11

/* The status of a call. */
enum {
    JRI_OK = 0,               /* done, by a call that does not judge the restart intervals */
    JRI_SOUND = 0,            /* done, and no interval is damaged */
    JRI_NO_MEMORY = 1,        /* out of memory */
    JRI_REFUSED = 2,          /* the file is refused: jri does not decode it */
    JRI_DAMAGED = 3,          /* done, and an interval is damaged */
    JRI_BUFFER_TOO_SMALL = 4, /* a buffer is too small */
    JRI_NO_LINES = 5,         /* the image has no such lines or rows, or none were asked for */
    JRI_NO_LAYOUT = 6,        /* there is no such layout, or a line is longer than the stride */
    JRI_NEED_MORE = 7,        /* the bytes so far end before the header does */
    JRI_TOO_LONG = 8,         /* the file written anew would be longer than a file may be: 1,073,741,824 bytes */
    JRI_NO_COPIES = 9,        /* there are no copies, more than 64, or their sizes exceed their bytes */
    JRI_OTHER_HEADER = 10,    /* a copy has another header than the first */
    JRI_NOT_IN_WINDOW = 11    /* the position is before the window's first byte or after its end */
};

/* Whether the bytes are all of the file, or more may follow. */
enum { JRI_COMPLETE = 0, JRI_PARTIAL = 1 };

/*
 * Whether a call reads a file as it is, or resynchronised, as jri_resynchronise writes it.
 *
 * Proved: with JRI_RESYNC image, marks and report are those of the resynchronised file, which has the file's header.
 * JRI_TOO_LONG is returned only with JRI_RESYNC, and only if that file would be too long. Any number but 0 counts as
 * JRI_RESYNC. Tested: the report's end is JRI_END_OF_IMAGE.
 *
 * With JRI_RESYNC a call also allocates the resynchronised file, unless the file's markers are in step.
 */
enum { JRI_AS_IS = 0, JRI_RESYNC = 1 };

/* The meaning of the components. */
enum { JRI_GREY = 0, JRI_RGB = 1, JRI_YCBCR = 2 };

/* The mark of a restart interval. JRI_MARK_BLANK is never returned. */
enum { JRI_MARK_BLANK = 0, JRI_MARK_SOUND = 1, JRI_MARK_DAMAGED = 2 };

/* What ended the scan. */
enum {
    JRI_END_OF_IMAGE = 1,  /* EOI */
    JRI_OTHER_MARKER = 2,  /* another marker: its code is `found`, its offset `at` */
    JRI_OUT_OF_STEP = 3,   /* restart marker `found` where `due` was due, at offset `at` */
    JRI_EXTRA_RESTART = 4, /* a restart marker after the last interval, at offset `at` */
    JRI_END_OF_FILE = 5    /* the end of the file */
};

/*
 * What a file's header says. Proved: with JRI_REFUSED everything but the refusal's two numbers and the size (width,
 * height and components) is 0; with JRI_NO_MEMORY and JRI_NEED_MORE the size is 0 too; with JRI_OK and JRI_NEED_MORE the
 * refusal's two numbers are 0.
 */
struct jri_header {
    uint32_t width;         /* in pixels, 1 to 65535; with JRI_REFUSED as the frame header has it, from 0 */
    uint32_t height;        /* in lines, 1 to 65535; with JRI_REFUSED as the frame header has it, from 0 */
    uint32_t kind;          /* JRI_GREY, JRI_RGB or JRI_YCBCR */
    uint32_t components;    /* 1 or 3; a pixel has as many bytes; with JRI_REFUSED as the frame header has it */
    uint32_t intervals;     /* number of restart intervals; the marks have as many bytes */
    uint32_t refusal;       /* the number of the refusal, 1 to 18, or 19 with JRI_NO_MEMORY; otherwise 0 */
    uint64_t pixels;        /* size of the pixels in bytes: width * height * components */
    uint64_t detail;        /* the refusal's offset or marker code */
    uint64_t scan_at;       /* offset of the first byte after the scan header: the header has as many bytes */
    uint32_t restart;       /* number of MCUs of a restart interval; 0 if there are no restart markers */
    uint32_t mcu_width;     /* in pixels: 8, 16, 24 or 32 */
    uint32_t mcu_height;    /* in lines: 8, 16, 24 or 32, as many as a row of MCUs has */
    uint32_t mcus_across;   /* number of MCUs of a row */
    uint32_t mcus_down;     /* number of rows of MCUs */
    uint32_t mcus;          /* number of MCUs of the image */
    uint32_t horizontal[3]; /* horizontal sampling factor of each component, 1 to 4; 0 if there is no such component */
    uint32_t vertical[3];   /* vertical sampling factor of each component, 1 to 4; 0 if there is no such component */
};

/*
 * The report of a decoding or a check. Proved: without an image everything but the refusal's two numbers is 0; with
 * one these two are 0, and so are the fields that the end of the scan does not use. With JRI_BUFFER_TOO_SMALL,
 * JRI_NO_LINES, JRI_NO_LAYOUT and JRI_TOO_LONG everything is 0.
 */
struct jri_report {
    uint32_t intervals; /* number of restart intervals */
    uint32_t sound;     /* number of those that have a decoding */
    uint32_t damaged;   /* number of those that have none */
    uint32_t blank;     /* number of those that were not decoded: 0 */
    uint32_t ended;     /* what ended the scan: JRI_END_OF_IMAGE to JRI_END_OF_FILE */
    uint32_t found;     /* JRI_OTHER_MARKER: the marker's code; JRI_OUT_OF_STEP: its number */
    uint32_t due;       /* JRI_OUT_OF_STEP: the number that was due */
    uint32_t refusal;   /* the number of the refusal, 1 to 18, or 19 with JRI_NO_MEMORY; otherwise 0 */
    uint64_t at;        /* the offset of the marker that ended the scan; 0 with EOI and the end of the file */
    uint64_t detail;    /* the refusal's offset or marker code */
};

/*
 * A position between two rows of MCUs of a file. All 0 is the top. It is plain data that holds no memory: copy, keep,
 * store or forget it.
 */
struct jri_position {
    uint64_t at;            /* offset in the file of the byte that has the next bit */
    uint32_t bit;           /* number of bits of that byte that are taken, 0 to 7 */
    uint32_t row;           /* number of rows of MCUs before it */
    uint32_t interval;      /* the restart interval in which it is */
    uint32_t mcu;           /* number of MCUs of that interval before it */
    int32_t predictions[3]; /* the prediction of each component's DC coefficient */
    uint32_t state;         /* 0: the interval continues; 1: no further MCU of it is whole; 2: the scan has ended */
};

/*
 * The report of a call that continues from a position. Proved: unless the status is JRI_OK rows, lines and first_line
 * are 0; with JRI_OK, JRI_BUFFER_TOO_SMALL and JRI_NO_LINES the refusal's two numbers are.
 */
struct jri_rows {
    uint32_t rows;       /* number of rows of MCUs decoded or skipped */
    uint32_t lines;      /* number of lines of the image that they have */
    uint32_t first_line; /* the first of these lines, from 0 at the top */
    uint32_t refusal;    /* the number of the refusal, 1 to 18, or 19 with JRI_NO_MEMORY; otherwise 0 */
    uint64_t detail;     /* the refusal's offset or marker code */
};

/* A restart interval that has no decoding. */
struct jri_damage {
    uint32_t interval;   /* its number, from 0 */
    uint32_t first_mcu;  /* the first of its MCUs, by its number in the image */
    uint32_t mcus;       /* the number of its MCUs */
    uint32_t decodable;  /* the number of its first MCUs that can be decoded */
    uint32_t first_line; /* the first line of the image that they cover */
    uint32_t last_line;  /* the last line */
    uint64_t start;      /* offset of its first byte */
    uint64_t end;        /* offset after its last byte; both are 0 if it has none */
};

/* The report of jri_list_damage; 0 if nothing is listed. */
struct jri_damage_list {
    uint32_t count;   /* number of entries */
    uint32_t next;    /* the interval after those that were examined; the number of intervals if none is left */
    uint64_t next_at; /* offset of that interval's first byte; if the scan ends before it, one that no byte has */
    uint32_t refusal; /* the number of the refusal, 1 to 18, or 19 with JRI_NO_MEMORY; otherwise 0 */
    uint64_t detail;  /* the refusal's offset or marker code */
};

/* A marker of a scan that is not the restart marker that was due. */
struct jri_break {
    uint64_t at;      /* offset in the damaged file of its first FF */
    uint8_t code;     /* its code: D0 to D7 if it is a restart marker */
    uint8_t due;      /* the number of the restart marker that was due, 0 to 7 */
    uint32_t skipped; /* number of restart markers missing before it; 0 if it is passed over */
};

/*
 * The report of jri_resynchronise. Proved: unless the status is JRI_OK or JRI_BUFFER_TOO_SMALL everything but the
 * refusal's two numbers is 0; with these statuses these two are 0.
 */
struct jri_resynced {
    uint32_t ended;   /* what ended the damaged file's scan, as in jri_report */
    uint32_t found;   /* JRI_OTHER_MARKER: the marker's code */
    uint32_t due;     /* 0: no scan that is resynchronised ends out of step */
    uint32_t refusal; /* the number of the refusal, 1 to 18, or 19 with JRI_NO_MEMORY; otherwise 0 */
    uint64_t size;    /* size of the resynchronised file in bytes */
    uint64_t breaks;  /* number of its breaks */
    uint64_t at;      /* the offset of the marker that ended the scan; 0 with EOI and the end of the file */
    uint64_t detail;  /* the refusal's offset or marker code */
};

/* The copy from which a restart interval is taken. */
struct jri_choice {
    uint32_t copy;      /* the number of the copy, from 0 */
    uint32_t mark;      /* JRI_MARK_SOUND, or JRI_MARK_DAMAGED if the interval is damaged in all copies */
    uint32_t decodable; /* JRI_MARK_DAMAGED: the number of its first MCUs that can be decoded; otherwise 0 */
    uint32_t differs;   /* 1 if two copies in which it is sound have different data, otherwise 0 */
};

/*
 * The report of jri_mend. Proved: with JRI_SOUND, JRI_DAMAGED and JRI_BUFFER_TOO_SMALL it has intervals, damaged and
 * size, and the other numbers are 0; with any other status these three are 0.
 */
struct jri_mended {
    uint32_t intervals; /* number of restart intervals */
    uint32_t damaged;   /* number of those that are damaged in all copies */
    uint32_t copy;      /* JRI_REFUSED, JRI_OTHER_HEADER: the number of the copy, from 0 */
    uint32_t refusal;   /* the number of the copy's refusal, 1 to 18, or 19 with JRI_NO_MEMORY; otherwise 0 */
    uint64_t size;      /* size of the mended file in bytes */
    uint64_t detail;    /* the refusal's offset or marker code */
};

/* Returns the number of the library's interface (proved): JRI_VERSION if this header is its own. */
uint32_t jri_version(void);

/*
 * Reads a file's header and decodes nothing. With JRI_PARTIAL more bytes of the file may follow.
 *
 * Returns:
 *   JRI_OK: `header` has what the header says. Allocate the buffers and decode.
 *   JRI_NEED_MORE: only with JRI_PARTIAL; the header is not complete. Call again with more bytes.
 *   JRI_REFUSED: header->refusal and header->detail have the first fault. Another decoder may accept the file: width,
 *     height and components are those of its first frame header, progressive or not.
 *   JRI_NO_MEMORY: memory ran out.
 *
 * Proved: what is returned is said of these bytes and, with JRI_PARTIAL, of every file that begins with them.
 * JRI_NEED_MORE means that these bytes alone are too short: their refusal is 2, or 1 and they are fewer than two.
 *
 * Proved: with JRI_REFUSED the size is that of the first frame header, of SOF0 to SOF15, of these bytes and of every file
 * that begins with them. It is 0 if no whole frame header comes after SOI and whole segments of tables, restart
 * intervals, APPn and COM, and otherwise as the frame header has it. With JRI_PARTIAL a file may be refused before its
 * frame header has come: the size is then 0.
 */
uint32_t jri_read_header(const uint8_t *file, size_t file_length, uint32_t more, struct jri_header *header);

/*
 * Decodes a file, with JRI_RESYNC as jri_resynchronise writes it. Allocates for the scan and for one row of MCUs (8,
 * 16, 24 or 32 lines), and nothing for the image.
 *
 * Returns:
 *   JRI_SOUND: `pixels`, `marks` and `report` have the image, its marks and their counts.
 *   JRI_DAMAGED: the same, and an interval is damaged. Show the image, and say so.
 *   JRI_BUFFER_TOO_SMALL: pixels_size is less than header.pixels, or marks_size less than header.intervals and not 0.
 *   JRI_REFUSED, JRI_NO_MEMORY: as jri_read_header.
 *   JRI_TOO_LONG: only with JRI_RESYNC.
 *
 * Proved: with JRI_SOUND and JRI_DAMAGED the first bytes of `pixels` are the lines of the image from the top. A pixel
 * is one byte of grey, or one each of red, green and blue. The first bytes of `marks` are the marks, unless marks_size
 * is 0. Bytes after them are unchanged. A damaged interval shows its longest decodable prefix of whole MCUs, then
 * mid-grey: 128 in all components.
 */
uint32_t jri_decode(const uint8_t *file, size_t file_length, uint32_t resync, uint8_t *pixels, size_t pixels_size,
                    uint8_t *marks, size_t marks_size, struct jri_report *report);

/*
 * Decodes `count` lines of the image starting at line `first`, from 0 at the top. With JRI_RESYNC the image is that of
 * the file as jri_resynchronise writes it. Allocates as much as jri_decode.
 *
 * Returns:
 *   JRI_SOUND: `pixels` has the lines.
 *   JRI_DAMAGED: the same, and an interval that ends in these lines' rows of MCUs is damaged.
 *   JRI_NO_LINES: the image lacks one of these lines, or none were asked for.
 *   JRI_BUFFER_TOO_SMALL: the lines do not fit.
 *   JRI_REFUSED, JRI_NO_MEMORY: as jri_read_header.
 *   JRI_TOO_LONG: only with JRI_RESYNC.
 *
 * Proved: the lines are those that jri_decode returns, and bytes after them are unchanged. The report's sound and
 * damaged count the intervals that end in these lines' rows of MCUs. Over calls that share no row of MCUs and omit none
 * they add up to those of jri_decode.
 *
 * Each call reads the file anew, and the interval before the lines from its start. Without restart markers that is
 * everything before the lines. jri_decode_rows continues from a position instead.
 */
uint32_t jri_decode_lines(const uint8_t *file, size_t file_length, uint32_t resync, uint32_t first, uint32_t count,
                          uint8_t *pixels, size_t pixels_size, struct jri_report *report);

/*
 * Checks a file, with JRI_RESYNC as jri_resynchronise writes it. Reads each restart interval as jri_decode does, and
 * makes no image. Allocates for the scan alone, and takes about half of the time.
 *
 * Returns:
 *   JRI_SOUND: no interval is damaged.
 *   JRI_DAMAGED: an interval is damaged; `marks` says which. jri_list_damage says where.
 *   JRI_BUFFER_TOO_SMALL: marks_size is less than header.intervals, and not 0.
 *   JRI_REFUSED, JRI_NO_MEMORY: as jri_read_header. The file is not checked.
 *   JRI_TOO_LONG: only with JRI_RESYNC.
 *
 * Proved: with JRI_SOUND and JRI_DAMAGED the first bytes of `marks` are the marks of the intervals, unless marks_size
 * is 0. A mark is JRI_MARK_SOUND if its interval has a decoding, otherwise JRI_MARK_DAMAGED. Bytes after them are
 * unchanged, and `report` counts them.
 *
 * Tested: status, marks and report are those of jri_decode.
 */
uint32_t jri_check(const uint8_t *file, size_t file_length, uint32_t resync, uint8_t *marks, size_t marks_size,
                   struct jri_report *report);

/*
 * Decodes the next rows of MCUs starting at `position`, at most `rows`, and moves the position past them. A row has 8,
 * 16, 24 or 32 lines, the last one fewer: 32 lines hold a row of any file. With JRI_PARTIAL more bytes of the file may
 * follow, and rows that they could change are not returned. Allocates for one row of MCUs. Reads the header, and of the
 * scan what follows the position.
 *
 * Returns:
 *   JRI_OK: `pixels` has rows->lines lines. With JRI_PARTIAL and no rows, call again with more bytes.
 *   JRI_NO_LINES: the header is complete, and the image has no row at the position or none was asked for. This is the
 *     end.
 *   JRI_BUFFER_TOO_SMALL: not even the next row fits.
 *   JRI_REFUSED: with JRI_PARTIAL that of every file that begins with these bytes.
 *   JRI_NO_MEMORY: memory ran out.
 *
 * Proved, for any position: with JRI_OK the first bytes of `pixels` are rows->lines lines, and bytes after them are
 * unchanged. The position has moved by rows->rows rows, and the numbers fit the image. With JRI_COMPLETE these are all
 * rows that were asked for, are left and fit. With JRI_PARTIAL they are at most that number, and none before the header
 * is complete. With any other status pixels and position are unchanged. Unless memory ran out, JRI_NO_LINES and then
 * JRI_BUFFER_TOO_SMALL are returned if and only if they are true. JRI_DAMAGED is never returned: jri_check reports
 * soundness.
 *
 * A position is valid for these bytes if it is the top, or an earlier call returned it: with JRI_PARTIAL on bytes that
 * these extend, with JRI_COMPLETE on the same bytes. Proved: from a valid position the lines are those of jri_decode
 * for these bytes and, with JRI_PARTIAL, for every file that begins with them. No line is ever taken back. From any
 * other position the lines mean nothing, and nothing else goes wrong.
 *
 * Proved: with JRI_PARTIAL the rows end, if not before, at the first that these bytes do not make final. One of its
 * MCUs is not whole, and the marker that ends the MCU's interval is not there with its code. Fewer than 16,650 bits
 * follow the whole MCUs of that interval: an MCU has no more (T.81, F.1.2).
 */
uint32_t jri_decode_rows(const uint8_t *file, size_t file_length, uint32_t more, struct jri_position *position,
                         uint32_t rows, uint8_t *pixels, size_t pixels_size, struct jri_rows *report);

/*
 * Skips the next rows of MCUs starting at `position`, at most `rows`, by reading their bits alone, and moves the
 * position past them. One pass makes an index: a copy of the position every few rows. Threads and tiles decode their
 * own rows from it.
 *
 * Returns:
 *   JRI_OK: the position has moved by rows->rows rows.
 *   JRI_NO_LINES, JRI_REFUSED, JRI_NO_MEMORY: as jri_decode_rows.
 *
 * Proved: as for jri_decode_rows, without pixels. Tested: the position has the numbers that jri_decode_rows gives it.
 */
uint32_t jri_skip_rows(const uint8_t *file, size_t file_length, uint32_t more, struct jri_position *position,
                       uint32_t rows, struct jri_rows *report);

/*
 * Decodes rows as jri_decode_rows does, from some bytes of a file: its header, and a window. `header` has the file's
 * first bytes, at least to the end of the scan header. If they end before it, the call is jri_decode_rows on them. The
 * window has the file's bytes starting at offset `window_at`; with JRI_COMPLETE the file ends after them. The bytes
 * between header and window, and those before the position, are not needed.
 *
 * Returns:
 *   JRI_OK: as jri_decode_rows. With JRI_PARTIAL let the next window begin at or before position->at, and end later.
 *   JRI_NOT_IN_WINDOW: the window does not have the position. Pass one that does.
 *   JRI_NO_LINES, JRI_BUFFER_TOO_SMALL, JRI_REFUSED, JRI_NO_MEMORY: as jri_decode_rows.
 *
 * Proved: all that is proved of jri_decode_rows, for every file that has the window's bytes at its offset and, with
 * JRI_COMPLETE, ends with them. The window has the position if position->at, or the offset after the scan header if
 * that is larger, lies within it or at its end. If the image has a row at the position and one is asked for,
 * JRI_NOT_IN_WINDOW is returned if and only if the window does not have the position, unless memory ran out.
 *
 * A position is an offset in the file whichever call returns it. It serves for any window that has it, and for
 * jri_decode_rows.
 */
uint32_t jri_decode_window(const uint8_t *header, size_t header_length, const uint8_t *window, size_t window_length,
                           uint64_t window_at, uint32_t more, struct jri_position *position, uint32_t rows,
                           uint8_t *pixels, size_t pixels_size, struct jri_rows *report);

/*
 * Skips rows as jri_skip_rows does, from the header and a window of a file as for jri_decode_window.
 *
 * Returns:
 *   JRI_OK: the position has moved by rows->rows rows.
 *   JRI_NOT_IN_WINDOW, JRI_NO_LINES, JRI_REFUSED, JRI_NO_MEMORY: as jri_decode_window.
 *
 * Proved: as for jri_decode_window, without pixels.
 */
uint32_t jri_skip_window(const uint8_t *header, size_t header_length, const uint8_t *window, size_t window_length,
                         uint64_t window_at, uint32_t more, struct jri_position *position, uint32_t rows,
                         struct jri_rows *report);

/*
 * Writes the text of a refusal, by its number and detail, into the first bytes of `text`, as many as fit. There is no 0
 * after it. Returns the number of bytes.
 *
 * Proved: the number is not 0 if there is such a refusal and `text` is not empty, 0 if there is none, and at most 64.
 * Bytes after the text are unchanged. Tested: the texts.
 */
uint64_t jri_refusal_text(uint32_t refusal, uint64_t detail, uint8_t *text, size_t text_size);

/*
 * Lists the damaged intervals of a file in order, at most `damages_count`. It starts at interval `first`, whose bytes
 * begin at offset `first_at`; 0 and 0 are the first interval. list->next and list->next_at continue a list, also when
 * more bytes have come. With JRI_PARTIAL more bytes of the file may follow: it examines the intervals after which these
 * bytes have a marker. Reads the header and the bytes of the intervals examined. Allocates the number of bytes after
 * `first_at`; only those that the longest of these intervals needs are used.
 *
 * Returns:
 *   JRI_DAMAGED: list->count entries are listed. Continue at list->next until it is the number of intervals.
 *   JRI_SOUND: none is listed. With damages_count above 0 none is left, or with JRI_PARTIAL none that has ended.
 *   JRI_NEED_MORE: only with JRI_PARTIAL; the header is not complete. Call again with more bytes.
 *   JRI_REFUSED, JRI_NO_MEMORY: as jri_read_header.
 *
 * Proved, starting at 0 and 0 or where a list of the same file stopped: the first list->count entries are exactly the
 * damaged intervals from `first` on and before list->next. Each has its MCUs, lines and bytes. With JRI_PARTIAL this
 * holds for every file that begins with these bytes. With any numbers entries after them are unchanged; and if
 * list->next is less than the number of intervals, all entries are used, or with JRI_PARTIAL no marker is among the bytes
 * starting at list->next_at.
 */
uint32_t jri_list_damage(const uint8_t *file, size_t file_length, uint32_t more, uint32_t first, uint64_t first_at,
                         struct jri_damage *damages, size_t damages_count, struct jri_damage_list *list);

/*
 * Writes what ended the scan of a report into the first bytes of `text`, as jri prints it, as many as fit. There is no
 * 0 after it. Returns the number of bytes.
 *
 * Proved: the number is not 0 if the report has an end and `text` is not empty, 0 if it has none, and at most 96.
 * Tested: the texts.
 */
uint64_t jri_end_text(const struct jri_report *report, uint8_t *text, size_t text_size);

/*
 * Writes the name and version of the build into the first bytes of `text`, at most 96, without a 0 after them. Returns
 * the number of bytes.
 */
uint64_t jri_build_text(uint8_t *text, size_t text_size);

/* The layouts of a canvas: the bytes of a pixel. All but JRI_PLAIN spread grey to three. */
enum {
    JRI_PLAIN = 0,  /* a byte of grey, or one each of red, green and blue */
    JRI_RGB24 = 1,  /* red, green, blue */
    JRI_BGR24 = 2,  /* blue, green, red */
    JRI_RGBX32 = 3, /* red, green, blue, 255 */
    JRI_BGRX32 = 4  /* blue, green, red, 255 */
};

/*
 * Decodes a file onto a canvas: line k begins at canvas + k * stride, in a layout. With JRI_RESYNC it decodes the file
 * as jri_resynchronise writes it. Allocates for the scan, one row of MCUs and its lines, and nothing for the image. The
 * canvas must reach to the end of the last line, no further.
 *
 * Returns:
 *   JRI_SOUND: the lines of the image are on the canvas.
 *   JRI_DAMAGED: the same, and an interval is damaged.
 *   JRI_NO_LAYOUT: there is no such layout, or a line is longer than the stride.
 *   JRI_BUFFER_TOO_SMALL: a line does not fit on the canvas, or marks that were asked for are too small.
 *   JRI_REFUSED, JRI_NO_MEMORY: as jri_read_header.
 *   JRI_TOO_LONG: only with JRI_RESYNC.
 *
 * Proved: the lines are in this layout, and every other byte of the canvas is unchanged. `marks` and `report` are those
 * of jri_decode.
 */
uint32_t jri_decode_canvas(const uint8_t *file, size_t file_length, uint32_t resync, uint8_t *canvas,
                           size_t canvas_size, size_t stride, uint32_t layout, uint8_t *marks, size_t marks_size,
                           struct jri_report *report);

/*
 * Lays out lines that another call returned: consecutive lines of `width` pixels of one or three components, onto a
 * canvas as for jri_decode_canvas.
 *
 * Returns:
 *   JRI_OK: the lines are on the canvas.
 *   JRI_BUFFER_TOO_SMALL: a line does not fit.
 *   JRI_NO_LAYOUT: there is no such layout, a line is longer than the stride, components is neither 1 nor 3, or the
 *     bytes are not whole lines of at least one pixel.
 *
 * Proved: with JRI_OK every other byte of the canvas is unchanged, with any other status all of it is.
 */
uint32_t jri_lay_out(const uint8_t *lines, size_t lines_length, uint32_t width, uint32_t components, uint8_t *canvas,
                     size_t canvas_size, size_t stride, uint32_t layout);

/*
 * Writes a damaged file with its restart markers in step into the first bytes of `out`. Every other call then reads
 * that file: an interval that is lost has no bytes, and those after it are where they belong. The markers that were out
 * of step are listed, as many as `breaks` has entries: `breaks_count`. Allocates the file that it writes and a list of
 * the breaks. For the image alone pass JRI_RESYNC to jri_decode.
 *
 * The bytes of a scan fall into intervals by the numbers of its restart markers, which count modulo 8. One from which
 * on all up to EOI are those before the last intervals is counted from there. Before another one at most as many are
 * lost as the bytes before it hold on average, and three more if others follow it in step; if its number allows none,
 * it is passed over. So is an EOI after which the scan continues (docs/ARCHIVES.md).
 *
 * Returns:
 *   JRI_OK: `out` has the file of report->size bytes, `breaks` its breaks. Without breaks nothing was out of step.
 *   JRI_BUFFER_TOO_SMALL: the file does not fit; report->size and report->breaks say what is needed. A first call may
 *     have no buffers.
 *   JRI_TOO_LONG: the file would be longer than a file may be.
 *   JRI_REFUSED, JRI_NO_MEMORY: as jri_read_header.
 *
 * Proved: bytes after the file are unchanged. The first entries of `breaks` are its breaks in order, and entries after
 * them are unchanged. A file whose markers are in step keeps the data of each interval.
 *
 * Tested: file_length + 2 * intervals bytes suffice.
 */
uint32_t jri_resynchronise(const uint8_t *file, size_t file_length, uint8_t *out, size_t out_size,
                           struct jri_break *breaks, size_t breaks_count, struct jri_resynced *report);

/*
 * Mends a file from copies of it that are damaged in different places, at most 64. They lie one after another in
 * `files`, with the given sizes. Each restart interval is taken from the first copy in which it is sound, otherwise
 * from the first of those in which most MCUs can be decoded. The choices are listed, as many as `choices` has entries:
 * `choices_count`. Allocates the headers of all copies, the file that it writes, the choices, and two buffers as long
 * as the longest copy, of which it touches as much as its longest interval has.
 *
 * Returns:
 *   JRI_SOUND: `out` has the mended file of report->size bytes, and each interval is sound.
 *   JRI_DAMAGED: the same, and an interval is damaged in all copies.
 *   JRI_BUFFER_TOO_SMALL: the file does not fit; report->size and report->intervals say what is needed.
 *   JRI_REFUSED: copy report->copy is refused.
 *   JRI_OTHER_HEADER: the header of copy report->copy is not that of the first.
 *   JRI_NO_COPIES: there are no copies, more than 64, or their sizes exceed files_length.
 *   JRI_TOO_LONG: the file would be longer than a file may be.
 *   JRI_NO_MEMORY: memory ran out.
 *
 * Proved: the file is the header of the first copy and these intervals, and bytes after it are unchanged. The first
 * entries of `choices` are the choices in order, and entries after them are unchanged. An interval that is sound in a
 * copy is sound in the mended file.
 *
 * The copies are read as they are: nothing is read after a restart marker that is out of step. To read past it, pass
 * what jri_resynchronise writes of the copy. An interval that is damaged in all copies is taken whole from one of them:
 * copies are not combined, as the program jri_mend does.
 */
uint32_t jri_mend(const uint8_t *files, size_t files_length, const size_t *sizes, size_t copies, uint8_t *out,
                  size_t out_size, struct jri_choice *choices, size_t choices_count, struct jri_mended *report);

#ifdef __cplusplus
}
#endif

#endif
