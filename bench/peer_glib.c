/* The type that GLib guesses, and whether it is uncertain; the names of a type's icons. */
#include "peers.h"
#include <gio/gio.h>
#include <stdlib.h>
#include <string.h>

static char *guessed(const char *name, const unsigned char *content, size_t length) {
    gboolean is_uncertain = FALSE;
    char *type = g_content_type_guess(name, content, length, &is_uncertain);
    char *said = g_strdup_printf("%s%s", type, is_uncertain ? " uncertain" : "");
    char *copy = strdup(said);
    g_free(type);
    g_free(said);
    return copy;
}

char *by_name(const char *name) {
    return guessed(name, NULL, 0);
}

char *by_file(const char *path, const char *name, const unsigned char *content, size_t length) {
    (void)path;
    return guessed(name, content, length);
}

char *by_content(const unsigned char *content, size_t length) {
    return guessed(NULL, content, length);
}

char *of_type(const char *type) {
    char *generic = g_content_type_get_generic_icon_name(type);
    GIcon *icon = g_content_type_get_icon(type);
    char *names = g_strjoinv(" ", (char **)g_themed_icon_get_names(G_THEMED_ICON(icon)));
    char *said = g_strdup_printf("%s %s", generic, names);
    char *copy = strdup(said);
    g_free(generic);
    g_object_unref(icon);
    g_free(names);
    g_free(said);
    return copy;
}
