/* All types that xdgmime has of a name, and the type that it has of a file or a content; a type's name, icons and parents. */
#include "peers.h"
#include "xdgmime.h"
#include <stdlib.h>
#include <string.h>

#define MOST 10

static char *joined(const char *const *words, int count) {
    size_t length = 1;
    for (int i = 0; i < count; i++) {
        length += strlen(words[i]) + 1;
    }
    char *said = calloc(length, 1);
    for (int i = 0; said != NULL && i < count; i++) {
        strcat(strcat(said, words[i]), i + 1 < count ? " " : "");
    }
    return said;
}

char *by_name(const char *name) {
    const char *types[MOST];
    int count = xdg_mime_get_mime_types_from_file_name(name, types, MOST);
    return joined(types, count);
}

char *by_file(const char *path, const char *name, const unsigned char *content, size_t length) {
    (void)name, (void)content, (void)length;
    return strdup(xdg_mime_get_mime_type_for_file(path, NULL));
}

char *by_content(const unsigned char *content, size_t length) {
    int priority = 0;
    return strdup(xdg_mime_get_mime_type_for_data(content, length, &priority));
}

char *of_type(const char *type) {
    const char *icon = xdg_mime_get_icon(type), *generic = xdg_mime_get_generic_icon(type);
    const char *words[3 + MOST] = {xdg_mime_unalias_mime_type(type), icon != NULL ? icon : "-", generic != NULL ? generic : "-"};
    char **parents = xdg_mime_list_mime_parents(type);
    int count = 3;
    for (char **parent = parents; parent != NULL && *parent != NULL && count < 3 + MOST; parent++) {
        words[count++] = *parent;
    }
    char *said = joined(words, count);
    free(parents);
    return said;
}
