/* xdgmime, for in_process.c. */
#include "in_process.h"
#include "xdgmime.h"

#define ROOM 10

static void by_name(const struct item *item) {
    tell(xdg_mime_get_mime_type_from_file_name(chars(item->first)), '\n');
}

static const char *sniffed(struct text content, int *priority) {
    return xdg_mime_get_mime_type_for_data(content.at, content.length, priority);
}

static void by_content(const struct item *item) {
    int priority;
    tell(sniffed(item->second, &priority), '\n');
}

/* The type that the content chooses, as g_content_type_guess lets it: of high priority its own, else the first that is of it. */
static const char *chosen(const char *const *types, int count, struct text content) {
    int priority, at = 0;
    const char *type = sniffed(content, &priority);
    if (count == 0 || priority >= 80) {
        return type;
    }
    while (at < count && !xdg_mime_mime_type_subclass(types[at], type)) {
        at++;
    }
    return types[at < count ? at : 0];
}

static void by_file(const struct item *item) {
    const char *types[ROOM];
    int count = xdg_mime_get_mime_types_from_file_name(chars(item->first), types, ROOM);
    tell(count == 1 ? types[0] : chosen(types, count, item->second), '\n');
}

static void hits(const struct item *item) {
    const char *types[ROOM];
    int count = xdg_mime_get_mime_types_from_file_name(chars(item->first), types, ROOM);
    tell(count != 0 ? types[0] : NULL, '\n');
}

static void is_a(const struct item *item) {
    tell(xdg_mime_mime_type_subclass(chars(item->first), chars(item->second)) ? "yes" : "no", '\n');
}

static void listed_icons(const struct item *item) {
    tell(xdg_mime_get_icon(chars(item->first)), ' ');
    tell(xdg_mime_get_generic_icon(chars(item->first)), '\n');
}

const struct way WAYS[] = {
    {"name", by_name}, {"both", by_file}, {"file", by_file},                 {"content", by_content},
    {"hits", hits},    {"is_a", is_a},    {"listed_icons", listed_icons},    {NULL, NULL},
};
