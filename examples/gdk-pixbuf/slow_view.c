/*
 * Shows a picture whose file arrives slowly, as GTK viewers show it: what comes goes to a GdkPixbufLoader, and its pixbuf is drawn.
 *
 *     slow_view [--screenshots DIRECTORY] FILE BYTES MILLISECONDS
 *
 * BYTES bytes come each MILLISECONDS milliseconds. With --screenshots it writes the window to third.png, two_thirds.png and end.png in
 * the directory, once that much of the file has come, and ends.
 */
#include <gtk/gtk.h>
#include <stdlib.h>

enum { SHOWN_WIDTH = 800, SHOTS = 3 };

static const char *const SHOT_NAMES[SHOTS] = {"third.png", "two_thirds.png", "end.png"};

struct view {
    GdkPixbufLoader *loader;
    gchar *file;
    gsize length, at, step; /* how many bytes there are, have come, and come each time */
    const char *directory;     /* of screenshots, or NULL */
    guint shots, updates;   /* how many screenshots were taken, and how often lines were reported */
    gboolean is_drawn;      /* whether all that was reported is in the image, */
    gboolean is_painted;    /* and whether the image is on the screen */
    GtkWidget *window, *image, *label;
};

static void on_updated(GdkPixbufLoader *loader, gint x, gint y, gint width, gint height, struct view *view) {
    (void)loader, (void)x, (void)y, (void)width, (void)height;
    view->updates++;
    view->is_drawn = FALSE;
}

/* Draws the picture, turned as its EXIF data say, at the window's width. */
static void draw(struct view *view) {
    GdkPixbuf *picture = gdk_pixbuf_loader_get_pixbuf(view->loader);
    if (!picture || view->is_drawn)
        return;
    GdkPixbuf *turned = gdk_pixbuf_apply_embedded_orientation(picture);
    gint height = (gint)((gint64)SHOWN_WIDTH * gdk_pixbuf_get_height(turned) / gdk_pixbuf_get_width(turned));
    GdkPixbuf *shown = gdk_pixbuf_scale_simple(turned, SHOWN_WIDTH, MAX(height, 1), GDK_INTERP_BILINEAR);
    gtk_image_set_from_pixbuf(GTK_IMAGE(view->image), shown);
    g_object_unref(shown);
    g_object_unref(turned);
    view->is_drawn = TRUE;
    view->is_painted = FALSE;
}

static void on_painted(GdkFrameClock *clock, struct view *view) {
    (void)clock;
    view->is_painted = TRUE;
}

static void show_progress(struct view *view) {
    GdkPixbufFormat *format = gdk_pixbuf_loader_get_format(view->loader);
    gchar *name = format ? gdk_pixbuf_format_get_name(format) : g_strdup("that is not chosen yet");
    gchar *text = g_strdup_printf("%u %% of the file has come; lines were reported %u times, by the loader %s",
                                  (guint)(100 * view->at / view->length), view->updates, name);
    gtk_label_set_text(GTK_LABEL(view->label), text);
    g_free(text);
    g_free(name);
}

/* Writes the window as it stands on the screen. */
static void take_shot(struct view *view) {
    GdkWindow *window = gtk_widget_get_window(view->window);
    GdkPixbuf *shot = gdk_pixbuf_get_from_window(window, 0, 0, gdk_window_get_width(window), gdk_window_get_height(window));
    gchar *path = g_build_filename(view->directory, SHOT_NAMES[view->shots++], NULL);
    GError *error = NULL;
    if (!shot || !gdk_pixbuf_save(shot, path, "png", &error, NULL)) {
        g_printerr("slow_view: no screenshot: %s\n", error ? error->message : "the window has none");
        exit(2);
    }
    g_free(path);
    g_object_unref(shot);
}

/* The next bytes come. */
static void feed(struct view *view) {
    GError *error = NULL;
    gsize part = MIN(view->step, view->length - view->at);
    gboolean is_good = gdk_pixbuf_loader_write(view->loader, (const guchar *)view->file + view->at, part, &error);
    view->at += part;
    if (is_good && view->at == view->length)
        is_good = gdk_pixbuf_loader_close(view->loader, &error);
    if (!is_good) {
        g_printerr("slow_view: %s\n", error->message);
        exit(2);
    }
}

/* A screenshot has what had come by the last tick: so what came then is painted before. */
static gboolean on_tick(struct view *view) {
    if (view->directory && !view->is_painted)
        return G_SOURCE_CONTINUE;
    if (view->directory && view->at * SHOTS >= view->length * (view->shots + 1))
        take_shot(view);
    if (view->at == view->length) {
        if (view->directory)
            gtk_main_quit();
        return G_SOURCE_REMOVE;
    }
    feed(view);
    draw(view);
    show_progress(view);
    return G_SOURCE_CONTINUE;
}

static void open_window(struct view *view) {
    GtkWidget *box = gtk_box_new(GTK_ORIENTATION_VERTICAL, 0);
    view->window = gtk_window_new(GTK_WINDOW_TOPLEVEL);
    view->image = gtk_image_new();
    view->label = gtk_label_new(NULL);
    gtk_container_add(GTK_CONTAINER(box), view->image);
    gtk_container_add(GTK_CONTAINER(box), view->label);
    gtk_container_add(GTK_CONTAINER(view->window), box);
    gtk_window_set_title(GTK_WINDOW(view->window), "A file that arrives slowly");
    g_signal_connect(view->window, "destroy", G_CALLBACK(gtk_main_quit), NULL);
    gtk_widget_show_all(view->window);
    g_signal_connect(gtk_widget_get_frame_clock(view->window), "after-paint", G_CALLBACK(on_painted), view);
}

int main(int count, char **words) {
    struct view view = {.is_drawn = TRUE};
    gtk_init(&count, &words);
    if (count == 6 && g_strcmp0(words[1], "--screenshots") == 0) {
        view.directory = words[2];
        words += 2;
        count -= 2;
    }
    if (count != 4 || !g_file_get_contents(words[1], &view.file, &view.length, NULL) || view.length == 0) {
        g_printerr("slow_view [--screenshots DIRECTORY] FILE BYTES MILLISECONDS\n");
        return 1;
    }
    view.step = MAX(strtoul(words[2], NULL, 10), 1);
    view.loader = gdk_pixbuf_loader_new();
    g_signal_connect(view.loader, "area-updated", G_CALLBACK(on_updated), &view);
    open_window(&view);
    g_timeout_add((guint)strtoul(words[3], NULL, 10), G_SOURCE_FUNC(on_tick), &view);
    gtk_main();
    return 0;
}
