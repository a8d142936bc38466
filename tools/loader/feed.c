/*
 * Feeds a file to gdk-pixbuf in parts, as a viewer does whose file arrives, and prints what it was told.
 *
 *     feed FILE BYTES [LOADER] > PICTURE     parts of BYTES bytes; 0: the whole file by gdk_pixbuf_new_from_file
 *     feed --time FILE BYTES                 the processor time in milliseconds, and no picture
 *     feed --size FILE WIDTH                 the loader and the size that gdk_pixbuf_get_file_info returns, and the size of the
 *                                            picture that is asked for at that width
 *
 * LOADER names the loader; without it gdk-pixbuf chooses one by the file's first bytes. It writes the last picture as PPM on
 * standard output, and on standard error lines of a name and what it is:
 *
 *     loader      which loader took the file
 *     orientation the option of that name
 *     updates     how often lines were reported
 *     unreported      how many lines were not reported, and `again` how many were reported more than once
 *     changed     how many lines are another in the last picture than when they were reported
 *     error       its domain, code and words; the exit status is 2 then
 */
#include <gdk-pixbuf/gdk-pixbuf.h>
#include <stdio.h>
#include <stdlib.h>
#include <string.h>
#include <time.h>

struct seen {
    GdkPixbuf *pixbuf;
    guint updates;
    guint *reported;    /* how often each line was reported */
    guint8 *pixels; /* the lines as they were reported */
};

static gsize line_bytes(const GdkPixbuf *pixbuf) { return (gsize)gdk_pixbuf_get_width(pixbuf) * gdk_pixbuf_get_n_channels(pixbuf); }

static const guint8 *line_of(const GdkPixbuf *pixbuf, gint y) {
    return gdk_pixbuf_read_pixels(pixbuf) + (gsize)y * gdk_pixbuf_get_rowstride(pixbuf);
}

static void on_prepared(GdkPixbufLoader *loader, struct seen *seen) {
    if (seen->pixbuf) {
        g_printerr("error prepared twice\n");
        exit(2);
    }
    seen->pixbuf = g_object_ref(gdk_pixbuf_loader_get_pixbuf(loader));
    seen->reported = g_new0(guint, gdk_pixbuf_get_height(seen->pixbuf));
    seen->pixels = g_malloc(line_bytes(seen->pixbuf) * gdk_pixbuf_get_height(seen->pixbuf));
}

static void on_updated(GdkPixbufLoader *loader, gint x, gint y, gint width, gint height, struct seen *seen) {
    (void)loader;
    if (x != 0 || width != gdk_pixbuf_get_width(seen->pixbuf) || y < 0 || height > gdk_pixbuf_get_height(seen->pixbuf) - y) {
        g_printerr("error lines that are no lines of the picture\n");
        exit(2);
    }
    seen->updates++;
    for (gint line = y; line < y + height; line++) {
        seen->reported[line]++;
        memcpy(seen->pixels + line * line_bytes(seen->pixbuf), line_of(seen->pixbuf, line), line_bytes(seen->pixbuf));
    }
}

static void tell_lines(const struct seen *seen, const GdkPixbuf *last) {
    guint unreported = 0, again = 0, changed = 0;
    for (gint line = 0; line < gdk_pixbuf_get_height(last); line++) {
        unreported += seen->reported[line] == 0;
        again += seen->reported[line] > 1;
        changed += seen->reported[line] && memcmp(seen->pixels + line * line_bytes(last), line_of(last, line), line_bytes(last)) != 0;
    }
    g_printerr("updates %u\nunreported %u\nagain %u\nchanged %u\n", seen->updates, unreported, again, changed);
}

/* Feeds the bytes; whether all went well. */
static gboolean feed(GdkPixbufLoader *loader, const gchar *data, gsize length, gsize part, GError **error) {
    gboolean is_good = TRUE;
    for (gsize at = 0; at < length && is_good; at += part)
        is_good = gdk_pixbuf_loader_write(loader, (const guchar *)data + at, MIN(part, length - at), error);
    return gdk_pixbuf_loader_close(loader, is_good ? error : NULL) && is_good;
}

static GdkPixbuf *by_parts(const gchar *data, gsize length, gsize part, const char *name, GError **error) {
    struct seen seen = {0};
    GdkPixbufLoader *loader = name ? gdk_pixbuf_loader_new_with_type(name, error) : gdk_pixbuf_loader_new();
    if (!loader)
        return NULL;
    g_signal_connect(loader, "area-prepared", G_CALLBACK(on_prepared), &seen);
    g_signal_connect(loader, "area-updated", G_CALLBACK(on_updated), &seen);
    gboolean is_good = feed(loader, data, length, part, error);
    GdkPixbufFormat *format = gdk_pixbuf_loader_get_format(loader);
    GdkPixbuf *last = is_good ? g_object_ref(gdk_pixbuf_loader_get_pixbuf(loader)) : NULL;
    gchar *loaded_by = format ? gdk_pixbuf_format_get_name(format) : g_strdup("none");
    g_printerr("loader %s\n", loaded_by);
    g_free(loaded_by);
    if (last)
        tell_lines(&seen, last);
    g_object_unref(loader);
    g_clear_object(&seen.pixbuf);
    g_free(seen.reported);
    g_free(seen.pixels);
    return last;
}

static void write_picture(const GdkPixbuf *pixbuf) {
    printf("P6\n%d %d\n255\n", gdk_pixbuf_get_width(pixbuf), gdk_pixbuf_get_height(pixbuf));
    for (gint line = 0; line < gdk_pixbuf_get_height(pixbuf); line++)
        fwrite(line_of(pixbuf, line), 1, line_bytes(pixbuf), stdout);
}

static int tell_time(const char *name, gsize part) {
    gchar *data;
    gsize length;
    GdkPixbuf *pixbuf = NULL;
    if (!g_file_get_contents(name, &data, &length, NULL))
        return 1;
    clock_t start = clock();
    if (part == 0) {
        pixbuf = gdk_pixbuf_new_from_file(name, NULL);
    } else {
        GdkPixbufLoader *loader = gdk_pixbuf_loader_new();
        if (feed(loader, data, length, part, NULL))
            pixbuf = g_object_ref(gdk_pixbuf_loader_get_pixbuf(loader));
        g_object_unref(loader);
    }
    printf("%.2f\n", 1000.0 * (double)(clock() - start) / CLOCKS_PER_SEC);
    return pixbuf ? 0 : 2;
}

static int tell_size(const char *name, gint wanted_width) {
    gint width = 0, height = 0;
    GdkPixbufFormat *format = gdk_pixbuf_get_file_info(name, &width, &height);
    GdkPixbuf *pixbuf = gdk_pixbuf_new_from_file_at_scale(name, wanted_width, -1, TRUE, NULL);
    if (!format || !pixbuf)
        return 2;
    gchar *loaded_by = gdk_pixbuf_format_get_name(format);
    printf("%s %d %d, %d %d\n", loaded_by, width, height, gdk_pixbuf_get_width(pixbuf), gdk_pixbuf_get_height(pixbuf));
    g_free(loaded_by);
    g_object_unref(pixbuf);
    return 0;
}

int main(int count, char **words) {
    if (count == 4 && !strcmp(words[1], "--size"))
        return tell_size(words[2], atoi(words[3]));
    if (count == 4 && !strcmp(words[1], "--time"))
        return tell_time(words[2], strtoul(words[3], NULL, 10));
    GError *error = NULL;
    gchar *data;
    gsize length, part = count > 2 ? strtoul(words[2], NULL, 10) : 0;
    if (count < 3 || !g_file_get_contents(words[1], &data, &length, NULL))
        return 1;
    GdkPixbuf *pixbuf = part ? by_parts(data, length, part, count > 3 ? words[3] : NULL, &error)
                             : gdk_pixbuf_new_from_file(words[1], &error);
    g_free(data);
    if (!pixbuf) {
        g_printerr("error %s %d %s\n", g_quark_to_string(error->domain), error->code, error->message);
        g_error_free(error);
        return 2;
    }
    const gchar *orientation = gdk_pixbuf_get_option(pixbuf, "orientation");
    g_printerr("orientation %s\n", orientation ? orientation : "none");
    write_picture(pixbuf);
    g_object_unref(pixbuf);
    return 0;
}
