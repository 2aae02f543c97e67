/* GLib, for in_process.c: libgio-2.0, libgobject-2.0 and libglib-2.0, without their headers. */
#include "in_process.h"

char *g_content_type_guess(const char *name, const unsigned char *content, size_t length, int *is_uncertain);
int g_content_type_is_a(const char *type, const char *base);
void *g_content_type_get_icon(const char *type);
const char *const *g_themed_icon_get_names(void *icon);
void g_object_unref(void *object);
void g_free(void *block);

static void guess(const char *name, const uint8_t *content, size_t length) {
    int is_uncertain;
    char *type = g_content_type_guess(name, content, length, &is_uncertain);
    tell(type, '\n');
    g_free(type);
}

static void by_name(const struct item *item) {
    guess(chars(item->first), NULL, 0);
}

static void by_both(const struct item *item) {
    guess(chars(item->first), item->second.at, item->second.length);
}

static void by_content(const struct item *item) {
    guess(NULL, item->second.at, item->second.length);
}

static void by_file(const struct item *item) {
    int is_uncertain;
    char *type = g_content_type_guess(chars(item->first), NULL, 0, &is_uncertain);
    if (is_uncertain) {
        by_both(item);
    } else {
        tell(type, '\n');
    }
    g_free(type);
}

static void is_a(const struct item *item) {
    tell(g_content_type_is_a(chars(item->first), chars(item->second)) ? "yes" : "no", '\n');
}

/* The first name is the icon's, and the last is the generic one's before all of them are listed again, as those of symbolic icons. */
static void tell_icons(const char *type, char end) {
    void *icon = g_content_type_get_icon(type);
    const char *const *names = g_themed_icon_get_names(icon);
    size_t count = 0;
    while (names[count] != NULL) {
        count++;
    }
    tell(names[0], ' ');
    tell(names[count / 2 - 1], end);
    g_object_unref(icon);
}

static void icons(const struct item *item) {
    tell_icons(chars(item->first), '\n');
}

/* As of mimelook: a name's type, its icons, and whether an editor opens it. */
static void whole_item(const struct item *item) {
    int is_uncertain;
    char *type = g_content_type_guess(chars(item->first), NULL, 0, &is_uncertain);
    tell(type, ' ');
    tell_icons(type, ' ');
    tell(g_content_type_is_a(type, "text/plain") ? "yes" : "no", '\n');
    g_free(type);
}

const struct way WAYS[] = {
    {"name", by_name}, {"both", by_both},   {"file", by_file},    {"content", by_content},
    {"is_a", is_a},    {"icons", icons},    {"item", whole_item}, {NULL, NULL},
};
