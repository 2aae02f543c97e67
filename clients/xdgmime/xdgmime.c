/* What is asked of the database: each call is one or two of mimelook's. */
#define _POSIX_C_SOURCE 200809L
#include "xdgmime.h"
#include "database.h"
#include <fcntl.h>
#include <limits.h>
#include <mimelook.h>
#include <stdlib.h>
#include <string.h>

/* The order of every lookup. */
#define ORDER MIMELOOK_ALL_GLOBS
#define EMPTY_PRIORITY 100

const char xdg_mime_type_unknown[] = "application/octet-stream";
const char xdg_mime_type_empty[] = "application/x-zerosize";
const char xdg_mime_type_textplain[] = "text/plain";

/* A function that is told when what was read is given up. */
struct callback {
    struct callback *next;
    int number;
    XdgMimeCallback call;
    void *data;
    XdgMimeDestroy destroy;
};

/* the last one first, so by falling number */
static struct callback *callbacks;
static int last_number;
static const char **last_parents;

static const uint8_t *bytes_of(const char *text) {
    return (const uint8_t *)text;
}

/* A text of the database, which has a zero after it; NULL for none. */
static const char *text_of(mimelook_text text) {
    return text.length != 0 ? (const char *)text.at : NULL;
}

/* A type, of which those that lie in the library are the constants. */
static const char *type_of(mimelook_text type) {
    const char *const constants[] = {xdg_mime_type_unknown, xdg_mime_type_empty, xdg_mime_type_textplain};
    for (size_t i = 0; i < sizeof constants / sizeof *constants; i++) {
        if (strlen(constants[i]) == type.length && memcmp(constants[i], type.at, type.length) == 0) {
            return constants[i];
        }
    }
    return type.length != 0 ? text_of(type) : xdg_mime_type_unknown;
}

const char *xdg_mime_get_mime_type_for_data(const void *content, size_t length, int *priority) {
    mimelook_database *database = xdg_mime_database();
    mimelook_sniffed sniffed = {.type = MIMELOOK_NO_TEXT};
    mimelook_database_sniff(database, length != 0 ? content : NULL, length, &sniffed);
    if (priority != NULL) {
        *priority = length != 0 ? (int)sniffed.priority : EMPTY_PRIORITY;
    }
    return type_of(sniffed.type);
}

/* A lookup of a name, with a content unless that is NULL. */
static mimelook_answer looked_up(mimelook_database *database, const char *name, const uint8_t *content, size_t length) {
    mimelook_answer answer = {.type = MIMELOOK_NO_TEXT};
    mimelook_database_look_up(database, bytes_of(name), strlen(name), content, length, ORDER, &answer);
    return answer;
}

/* The type of a file whose name leaves it open: so many bytes of its content are wanted. */
static const char *type_by_content(mimelook_database *database, const char *path, const char *name, const struct stat *status,
    uint64_t wanted) {
    if (!S_ISREG(status->st_mode)) {
        return xdg_mime_type_unknown;
    }
    size_t length = (uint64_t)status->st_size < wanted ? (size_t)status->st_size : (size_t)wanted;
    uint8_t *front = malloc(length + 1);
    const char *type = xdg_mime_type_unknown;
    if (front != NULL && xdg_mime_read_front(AT_FDCWD, path, front, &length)) {
        type = type_of(looked_up(database, name, front, length).type);
    }
    free(front);
    return type;
}

const char *xdg_mime_get_mime_type_for_file(const char *path, struct stat *status) {
    if (path == NULL) {
        return NULL;
    }
    mimelook_database *database = xdg_mime_database();
    const char *slash = strrchr(path, '/');
    const char *name = slash != NULL ? slash + 1 : path;
    mimelook_answer answer = looked_up(database, name, NULL, 0);
    struct stat found;
    if (answer.wanted == 0) {
        return type_of(answer.type);
    }
    if (status == NULL && stat(path, &found) != 0) {
        return xdg_mime_type_unknown;
    }
    return type_by_content(database, path, name, status != NULL ? status : &found, answer.wanted);
}

const char *xdg_mime_get_mime_type_from_file_name(const char *name) {
    mimelook_database *database = xdg_mime_database();
    return type_of(looked_up(database, name, NULL, 0).type);
}

/* The globs that match a name, best first, in an array that the caller frees; none where memory is refused. */
static mimelook_hit *hits_of(mimelook_database *database, const char *name, size_t *count) {
    *count = 0;
    mimelook_database_hits(database, bytes_of(name), strlen(name), NULL, 0, count);
    mimelook_hit *hits = calloc(*count + 1, sizeof *hits);
    size_t room = hits != NULL ? *count : 0;
    *count = 0;
    mimelook_database_hits(database, bytes_of(name), strlen(name), hits, room, count);
    *count = *count < room ? *count : room;
    return hits;
}

/* Whether a type is among the first. */
static bool is_listed(const char *const types[], int count, const char *type) {
    bool is = false;
    for (int i = 0; i < count; i++) {
        is |= strcmp(types[i], type) == 0;
    }
    return is;
}

int xdg_mime_get_mime_types_from_file_name(const char *name, const char *types[], int room) {
    mimelook_database *database = xdg_mime_database();
    size_t count;
    mimelook_hit *hits = hits_of(database, name, &count);
    int listed = 0;
    for (size_t i = 0; i < count && listed < room; i++) {
        mimelook_text resolved = hits[i].type;
        mimelook_database_unalias(database, hits[i].type.at, hits[i].type.length, &resolved);
        types[listed] = type_of(resolved);
        listed += !is_listed(types, listed, types[listed]);
    }
    free(hits);
    return listed;
}

int xdg_mime_is_valid_mime_type(const char *type) {
    return mimelook_is_type_name(bytes_of(type), strlen(type));
}

static const char *unaliased(mimelook_database *database, const char *type) {
    mimelook_text text = MIMELOOK_NO_TEXT;
    mimelook_database_unalias(database, bytes_of(type), strlen(type), &text);
    const char *found = text_of(text);
    return found != NULL ? found : type;
}

const char *xdg_mime_unalias_mime_type(const char *type) {
    return unaliased(xdg_mime_database(), type);
}

int xdg_mime_mime_type_equal(const char *type, const char *other) {
    mimelook_database *database = xdg_mime_database();
    return strcmp(unaliased(database, type), unaliased(database, other)) == 0;
}

int xdg_mime_media_type_equal(const char *type, const char *other) {
    const char *slash = strchr(type, '/');
    return slash != NULL && strncmp(type, other, (size_t)(slash - type) + 1) == 0;
}

/* Whether a base is all types up to the `/`. */
static bool is_media_type(const char *base) {
    size_t length = strlen(base);
    return length >= 2 && strcmp(base + length - 2, "/*") == 0;
}

int xdg_mime_mime_type_subclass(const char *type, const char *base) {
    mimelook_database *database = xdg_mime_database();
    if (is_media_type(base) && xdg_mime_media_type_equal(unaliased(database, type), base)) {
        return 1;
    }
    /* of what is the name of no type it is known only that it has bytes */
    const char *asked = xdg_mime_is_valid_mime_type(type) ? type : xdg_mime_type_unknown;
    bool is = strcmp(type, base) == 0;
    mimelook_database_is_a(database, bytes_of(asked), strlen(asked), bytes_of(base), strlen(base), &is);
    return is;
}

/* The parents of a type, and then NULL, in an array that the caller frees; NULL where memory is refused. */
static const char **parents_of(const char *type) {
    mimelook_database *database = xdg_mime_database();
    const char *asked = unaliased(database, type);
    size_t count = 0, kept = 0;
    mimelook_database_parents(database, bytes_of(asked), strlen(asked), NULL, 0, &count);
    mimelook_text *texts = calloc(count + 1, sizeof *texts);
    const char **parents = calloc(count + 1, sizeof *parents);
    if (texts == NULL || parents == NULL) {
        free(texts);
        free(parents);
        return NULL;
    }
    size_t room = count;
    mimelook_database_parents(database, bytes_of(asked), strlen(asked), texts, room, &count);
    for (size_t i = 0; i < room; i++) {
        const char *parent = text_of(texts[i]);
        parents[kept] = parent;
        kept += parent != NULL;
    }
    free(texts);
    return parents;
}

char **xdg_mime_list_mime_parents(const char *type) {
    return (char **)parents_of(type);
}

const char **xdg_mime_get_mime_parents(const char *type) {
    free(last_parents);
    last_parents = parents_of(type);
    return last_parents;
}

/* The icons that are listed for a type. */
static void listed_icons(const char *type, const char **icon, const char **generic) {
    mimelook_database *database = xdg_mime_database();
    mimelook_text listed = MIMELOOK_NO_TEXT, listed_generic = MIMELOOK_NO_TEXT;
    mimelook_database_listed_icons(database, bytes_of(type), strlen(type), &listed, &listed_generic);
    *icon = text_of(listed);
    *generic = text_of(listed_generic);
}

const char *xdg_mime_get_icon(const char *type) {
    const char *icon, *generic;
    listed_icons(type, &icon, &generic);
    return icon;
}

const char *xdg_mime_get_generic_icon(const char *type) {
    const char *icon, *generic;
    listed_icons(type, &icon, &generic);
    return generic;
}

int xdg_mime_get_max_buffer_extents(void) {
    mimelook_database *database = xdg_mime_database();
    uint64_t extent = 0;
    mimelook_database_extent(database, &extent);
    return extent < INT_MAX ? (int)extent : INT_MAX;
}

/* The callback with the least number above this one. */
static const struct callback *callback_after(int number) {
    const struct callback *found = NULL;
    for (const struct callback *each = callbacks; each != NULL && each->number > number; each = each->next) {
        found = each;
    }
    return found;
}

void xdg_mime_shutdown(void) {
    xdg_mime_drop_database();
    free(last_parents);
    last_parents = NULL;
    /* by number, since a callback may remove itself or others */
    const struct callback *each = callback_after(0);
    while (each != NULL) {
        int number = each->number;
        each->call(each->data);
        each = callback_after(number);
    }
}

int xdg_mime_register_reload_callback(XdgMimeCallback call, void *data, XdgMimeDestroy destroy) {
    struct callback *added = malloc(sizeof *added);
    if (added == NULL) {
        return 0;
    }
    *added = (struct callback){callbacks, ++last_number, call, data, destroy};
    callbacks = added;
    return added->number;
}

void xdg_mime_remove_callback(int number) {
    struct callback **link = &callbacks;
    while (*link != NULL && (*link)->number != number) {
        link = &(*link)->next;
    }
    struct callback *removed = *link;
    if (removed == NULL) {
        return;
    }
    *link = removed->next;
    if (removed->destroy != NULL) {
        removed->destroy(removed->data);
    }
    free(removed);
}
