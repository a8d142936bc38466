/*
 * A loader of JPEG files for gdk-pixbuf, by libjri.
 *
 * The bytes are kept as they arrive. Each time that about a row of MCUs more has come, the rows that are settled by now are decoded
 * straight into the pixbuf, each once, and reported. A file that libjri doesn't decode since it is no baseline file, as a progressive
 * one, goes on to the loader of gdk-pixbuf that is named "jpeg", with all bytes that came and those that follow, or at its end.
 */
#define GDK_PIXBUF_ENABLE_BACKEND
#include "orientation.h"

#include <errno.h>
#include <gdk-pixbuf/gdk-pixbuf.h>
#include <gmodule.h>
#include <jri.h>
#include <string.h>

/* The number of bytes that are awaited before rows are asked for again: those of a row, or this part of a row where it was longer
 * than the one before; within these bounds, and at least this part of the header, which each call reads again. */
enum { PART_OF_ROW = 8, LEAST_AWAITED = 256, MOST_AWAITED = 65536, PART_OF_HEADER = 8 };

enum { CHANNELS = 3, GREY = 128 };

static const guint8 END_OF_IMAGE[] = {0xFF, 0xD9};

enum stage { READS_HEADER, DECODES, IS_DONE, HANDED_OVER, HAS_FAILED };

struct bytes {
    guint8 *data;
    gsize length, capacity;
};

struct loading {
    GdkPixbufModuleSizeFunc size; /* these three are NULL if no caller is told */
    GdkPixbufModulePreparedFunc prepared;
    GdkPixbufModuleUpdatedFunc updated;
    gpointer user;
    enum stage stage;
    struct bytes file;
    gsize row_bytes; /* how many bytes each of the last rows took; 0 as long as nobody knows */
    gsize awaited;   /* how many bytes there are to be before rows are asked for again */
    struct jri_header header;
    struct jri_position place;
    guint lines; /* how many lines are decoded */
    GdkPixbuf *pixbuf;
    GdkPixbufLoader *other;
};

static gboolean fail_for_memory(GError **error) {
    g_set_error_literal(error, GDK_PIXBUF_ERROR, GDK_PIXBUF_ERROR_INSUFFICIENT_MEMORY, "out of memory");
    return FALSE;
}

static gboolean refuse(guint32 refusal, guint64 detail, GError **error) {
    guint8 text[64];
    gint length = (gint)jri_refusal_text(refusal, detail, text, sizeof text);
    g_set_error(error, GDK_PIXBUF_ERROR, GDK_PIXBUF_ERROR_CORRUPT_IMAGE, "%.*s", length, (const char *)text);
    return FALSE;
}

/* Awaits some bytes more. While the header is incomplete, its part is one of the bytes so far. */
static void await(struct loading *l, gsize bytes) {
    gsize header = l->header.scan_at ? l->header.scan_at : l->file.length;
    l->awaited = l->file.length + MAX(CLAMP(bytes, LEAST_AWAITED, MOST_AWAITED), header / PART_OF_HEADER);
}

/* Makes space for `more` bytes. */
static gboolean make_room(struct bytes *file, gsize more, GError **error) {
    if (file->capacity - file->length >= more)
        return TRUE;
    gsize capacity = MAX(2 * file->capacity, file->length + more);
    guint8 *data = g_try_realloc(file->data, capacity);
    if (!data)
        return fail_for_memory(error);
    file->data = data;
    file->capacity = capacity;
    return TRUE;
}

static gboolean append(struct bytes *file, const guint8 *data, gsize length, GError **error) {
    if (!make_room(file, length, error))
        return FALSE;
    memcpy(file->data + file->length, data, length);
    file->length += length;
    return TRUE;
}

static void give_back(struct bytes *file) {
    g_free(file->data);
    *file = (struct bytes){0};
}

/*
 * The other loader.
 */

/* Whether a refusal says that a file may be a JPEG file of another kind, or is past a limit of libjri: refusals of jri.h that a
 * baseline file with one scan doesn't get. */
static gboolean is_of_another_kind(guint32 refusal) {
    switch (refusal) {
    case 4:  /* a marker that baseline files don't have, as that of arithmetic conditioning */
    case 5:  /* progressive, lossless, hierarchical or arithmetic */
    case 10: /* samples of 12 bits */
    case 11: /* the number of lines follows the scan */
    case 12: /* too many pixels */
    case 13: /* two or four components, as of CMYK */
    case 14: /* sampling factors that don't divide each other */
    case 15: /* several scans */
    case 18: /* too long */
        return TRUE;
    default:
        return FALSE;
    }
}

/* Whether the other loader gets a file of another kind at its end alone. It can't wait for bytes of arithmetic data: by parts it
 * fails, or doesn't return. A progressive file's frame is recognised by detail C2, and all but these may be arithmetic. */
static gboolean is_handed_over_whole(const struct jri_header *header) {
    return header->refusal == 4 || (header->refusal == 5 && header->detail != 0xC2);
}

static void size_other(GdkPixbufLoader *other, gint width, gint height, gpointer data) {
    struct loading *l = data;
    gint wanted_width = width, wanted_height = height;
    if (l->size)
        l->size(&wanted_width, &wanted_height, l->user);
    if (wanted_width != width || wanted_height != height)
        gdk_pixbuf_loader_set_size(other, wanted_width, wanted_height);
}

static void prepare_other(GdkPixbufLoader *other, gpointer data) {
    struct loading *l = data;
    l->pixbuf = g_object_ref(gdk_pixbuf_loader_get_pixbuf(other));
    if (l->prepared)
        l->prepared(l->pixbuf, NULL, l->user);
}

static void update_other(GdkPixbufLoader *other, gint x, gint y, gint width, gint height, gpointer data) {
    struct loading *l = data;
    (void)other;
    if (l->updated)
        l->updated(l->pixbuf, x, y, width, height, l->user);
}

/* Gives all bytes that came to the other loader; where there is none the file is refused. A whole file gets an EOI after its end:
 * else the other loader fails on some that were cut off. */
static gboolean hand_over(struct loading *l, guint32 more, GError **error) {
    if (more == JRI_COMPLETE && !append(&l->file, END_OF_IMAGE, sizeof END_OF_IMAGE, error))
        return FALSE;
    l->other = gdk_pixbuf_loader_new_with_type("jpeg", NULL);
    if (!l->other)
        return refuse(l->header.refusal, l->header.detail, error);
    g_signal_connect(l->other, "size-prepared", G_CALLBACK(size_other), l);
    g_signal_connect(l->other, "area-prepared", G_CALLBACK(prepare_other), l);
    g_signal_connect(l->other, "area-updated", G_CALLBACK(update_other), l);
    l->stage = HANDED_OVER;
    gboolean is_taken = gdk_pixbuf_loader_write(l->other, l->file.data, l->file.length, error);
    give_back(&l->file);
    return is_taken;
}

/*
 * Decoding.
 */

static void free_pixels(guchar *pixels, gpointer data) {
    (void)data;
    g_free(pixels);
}

/* Makes the pixbuf, whose lines have no bytes between them, so that libjri decodes into it. */
static gboolean begin_picture(struct loading *l, guint32 more, GError **error) {
    gint width = (gint)l->header.width, height = (gint)l->header.height, wanted_width = width, wanted_height = height;
    if (l->size)
        l->size(&wanted_width, &wanted_height, l->user);
    if (wanted_width == 0 || wanted_height == 0) {
        g_set_error_literal(error, GDK_PIXBUF_ERROR, GDK_PIXBUF_ERROR_CORRUPT_IMAGE, "a width or height of 0 is wanted");
        return FALSE;
    }
    gsize capacity = (gsize)CHANNELS * width * height;
    guint8 *pixels = g_try_malloc(capacity);
    if (!pixels)
        return fail_for_memory(error);
    if (more == JRI_PARTIAL)
        memset(pixels, GREY, capacity);
    l->pixbuf = gdk_pixbuf_new_from_data(pixels, GDK_COLORSPACE_RGB, FALSE, 8, width, height, CHANNELS * width, free_pixels, NULL);
    guint orientation = orientation_of(l->file.data, l->file.length);
    if (orientation) {
        char text[2] = {(char)('0' + orientation), 0};
        gdk_pixbuf_set_option(l->pixbuf, "orientation", text);
    }
    l->stage = DECODES;
    if (l->prepared)
        l->prepared(l->pixbuf, NULL, l->user);
    return TRUE;
}

/* Reads the header; until it has come as a whole, more bytes are awaited. */
static gboolean read_header(struct loading *l, guint32 more, GError **error) {
    guint32 status = jri_read_header(l->file.data, l->file.length, more, &l->header);
    if (status == JRI_OK)
        return begin_picture(l, more, error);
    if (status == JRI_NEED_MORE)
        return TRUE;
    if (status == JRI_NO_MEMORY)
        return fail_for_memory(error);
    if (!is_of_another_kind(l->header.refusal))
        return refuse(l->header.refusal, l->header.detail, error);
    if (more == JRI_COMPLETE || !is_handed_over_whole(&l->header))
        return hand_over(l, more, error);
    l->awaited = G_MAXSIZE;
    return TRUE;
}

/* Spreads `count` bytes of grey to red, green and blue in place, the last one first. */
static void spread_grey(guint8 *pixels, gsize count) {
    for (gsize i = count; i-- > 0;)
        memset(pixels + CHANNELS * i, pixels[i], CHANNELS);
}

/* Takes in the rows that were decoded: they are reported, and the next one awaited. */
static void take_rows(struct loading *l, guint8 *pixels, const struct jri_rows *rows) {
    if (l->header.components == 1)
        spread_grey(pixels, (gsize)l->header.width * rows->lines);
    l->lines += rows->lines;
    await(l, l->row_bytes);
    if (l->updated)
        l->updated(l->pixbuf, 0, (gint)rows->first_line, (gint)l->header.width, (gint)rows->lines, l->user);
    if (l->lines == l->header.height) {
        l->stage = IS_DONE;
        give_back(&l->file);
    }
}

/* Decodes the rows of MCUs that are settled by the bytes that came. */
static gboolean decode_rows(struct loading *l, guint32 more, GError **error) {
    gsize width = l->header.width, left = l->header.height - l->lines, from = l->place.at;
    guint8 *pixels = gdk_pixbuf_get_pixels(l->pixbuf) + CHANNELS * width * l->lines;
    struct jri_rows rows;
    guint32 status = jri_decode_rows(l->file.data, l->file.length, more, &l->place, G_MAXUINT32, pixels,
                                     width * left * l->header.components, &rows);
    if (status == JRI_NO_MEMORY)
        return fail_for_memory(error);
    if (status != JRI_OK)
        return refuse(rows.refusal, rows.detail, error);
    if (rows.rows && from) /* the first row's bytes have the head before them */
        l->row_bytes = (l->place.at - from) / rows.rows;
    if (rows.rows)
        take_rows(l, pixels, &rows);
    return TRUE;
}

/* Goes on as far as the bytes reach that came. */
static gboolean advance(struct loading *l, guint32 more, GError **error) {
    await(l, l->row_bytes / PART_OF_ROW);
    gboolean is_good = l->stage != READS_HEADER || read_header(l, more, error);
    if (is_good && l->stage == DECODES)
        is_good = decode_rows(l, more, error);
    if (!is_good)
        l->stage = HAS_FAILED;
    return is_good;
}

/* Goes on to the end of the file: of one that was cut off, what is missing stays grey. */
static gboolean finish(struct loading *l, GError **error) {
    gboolean is_good = l->stage == HANDED_OVER ? gdk_pixbuf_loader_write(l->other, END_OF_IMAGE, sizeof END_OF_IMAGE, error)
                                               : advance(l, JRI_COMPLETE, error);
    return is_good && l->stage == HANDED_OVER ? gdk_pixbuf_loader_close(l->other, error) : is_good;
}

static void clear(struct loading *l) {
    if (l->other) {
        gdk_pixbuf_loader_close(l->other, NULL); /* it is an error to drop one that is open, and none to close it twice */
        g_object_unref(l->other);
    }
    if (l->pixbuf)
        g_object_unref(l->pixbuf);
    give_back(&l->file);
}

/*
 * What gdk-pixbuf calls.
 */

static gpointer begin_load(GdkPixbufModuleSizeFunc size, GdkPixbufModulePreparedFunc prepared, GdkPixbufModuleUpdatedFunc updated,
                           gpointer user, GError **error) {
    struct loading *l = g_try_new0(struct loading, 1);
    if (l)
        *l = (struct loading){.size = size, .prepared = prepared, .updated = updated, .user = user};
    else
        fail_for_memory(error);
    return l;
}

static gboolean load_increment(gpointer context, const guchar *data, guint length, GError **error) {
    struct loading *l = context;
    if (l->stage == IS_DONE)
        return TRUE;
    gboolean is_taken = l->stage == HANDED_OVER ? gdk_pixbuf_loader_write(l->other, data, length, error)
                                                : append(&l->file, data, length, error);
    if (!is_taken)
        l->stage = HAS_FAILED;
    return is_taken && (l->file.length < l->awaited || advance(l, JRI_PARTIAL, error));
}

static gboolean stop_load(gpointer context, GError **error) {
    struct loading *l = context;
    gboolean is_good = l->stage == HAS_FAILED || finish(l, error);
    clear(l);
    g_free(l);
    return is_good;
}

static gboolean read_all(struct bytes *file, FILE *stream, GError **error) {
    gsize got = 1;
    while (got) {
        if (!make_room(file, 65536, error))
            return FALSE;
        got = fread(file->data + file->length, 1, file->capacity - file->length, stream);
        file->length += got;
    }
    if (ferror(stream))
        g_set_error_literal(error, G_FILE_ERROR, g_file_error_from_errno(errno), g_strerror(errno));
    return !ferror(stream);
}

static GdkPixbuf *load(FILE *stream, GError **error) {
    struct loading l = {0};
    gboolean is_good = read_all(&l.file, stream, error) && finish(&l, error);
    GdkPixbuf *pixbuf = is_good ? g_object_ref(l.pixbuf) : NULL;
    clear(&l);
    return pixbuf;
}

G_MODULE_EXPORT void fill_vtable(GdkPixbufModule *module) {
    module->load = load;
    module->begin_load = begin_load;
    module->load_increment = load_increment;
    module->stop_load = stop_load;
}

G_MODULE_EXPORT void fill_info(GdkPixbufFormat *info) {
    static GdkPixbufModulePattern signature[] = {{"\xFF\xD8", NULL, 100}, {NULL, NULL, 0}};
    static gchar *types[] = {"image/jpeg", NULL};
    static gchar *extensions[] = {"jpeg", "jpe", "jpg", NULL};
    info->name = "jri"; /* not "jpeg": by that name the other loader is found, and JPEG files are written */
    info->signature = signature;
    info->description = "JPEG by libjri";
    info->mime_types = types;
    info->extensions = extensions;
    info->flags = GDK_PIXBUF_FORMAT_THREADSAFE;
}
