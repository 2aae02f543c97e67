/* Prints a line for each question, the answer of whatever reader it is linked with: peers name NAME.., peers file PATH..,
 * peers content PATH.. or peers type TYPE... */
#include "peers.h"
#include "read_all.h"
#include <stdbool.h>
#include <stdio.h>
#include <stdlib.h>
#include <string.h>

static char *by_path(bool is_named, const char *path) {
    const char *slash = strrchr(path, '/');
    size_t length;
    unsigned char *content = read_all(path, &length);
    char *answer = is_named ? by_file(path, slash != NULL ? slash + 1 : path, content, length) : by_content(content, length);
    free(content);
    return answer;
}

static char *answer_of(const char *way, const char *word) {
    if (strcmp(way, "name") == 0) {
        return by_name(word);
    }
    return strcmp(way, "type") == 0 ? of_type(word) : by_path(strcmp(way, "file") == 0, word);
}

int main(int count, char **words) {
    if (count < 2) {
        return 2;
    }
    for (int i = 2; i < count; i++) {
        char *answer = answer_of(words[1], words[i]);
        if (answer == NULL) {
            return 1;
        }
        puts(answer);
        free(answer);
    }
    return 0;
}
