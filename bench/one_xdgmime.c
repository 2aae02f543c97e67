/* Prints FILE: TYPE for each FILE, by whatever xdgmime it is linked with. */
#include "xdgmime.h"
#include <stdio.h>

int main(int count, char **paths) {
    for (int i = 1; i < count; i++) {
        printf("%s: %s\n", paths[i], xdg_mime_get_mime_type_for_file(paths[i], NULL));
    }
    return 0;
}
