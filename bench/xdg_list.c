/* Prints three lines for each file: its type by its name, by its content and by both, by whatever xdgmime it is linked with. */
#include "xdgmime.h"
#include <stdio.h>
#include <stdlib.h>
#include <string.h>

static const char *by_content(const char *path) {
    size_t room = (size_t)xdg_mime_get_max_buffer_extents();
    FILE *file = fopen(path, "rb");
    char *front = malloc(room + 1);
    if (file == NULL || front == NULL) {
        exit(1);
    }
    int priority;
    const char *type = xdg_mime_get_mime_type_for_data(front, fread(front, 1, room, file), &priority);
    free(front);
    fclose(file);
    return type;
}

int main(int count, char **paths) {
    for (int i = 1; i < count; i++) {
        const char *slash = strrchr(paths[i], '/');
        printf("%s\n", xdg_mime_get_mime_type_from_file_name(slash != NULL ? slash + 1 : paths[i]));
        printf("%s\n", by_content(paths[i]));
        printf("%s\n", xdg_mime_get_mime_type_for_file(paths[i], NULL));
    }
    xdg_mime_shutdown();
    return 0;
}
