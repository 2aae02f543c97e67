/* Prints the types of files, as `mimelook type` does: example CACHE FILE...
 *
 *     cc example.c $(pkg-config --cflags --libs mimelook) -o example
 *     ./example /usr/share/mime/mime.cache *.txt */
#define _POSIX_C_SOURCE 200809L
#include <errno.h>
#include <fcntl.h>
#include <mimelook.h>
#include <stdio.h>
#include <stdlib.h>
#include <string.h>
#include <sys/mman.h>
#include <sys/stat.h>
#include <unistd.h>

struct cache {
    const uint8_t *bytes;
    size_t length;
};

/* A regular file to be read, else -1; nothing else is opened, since a pipe or a terminal may keep its reader waiting. */
static int open_regular(const char *path, struct stat *there) {
    if (stat(path, there) != 0 || !S_ISREG(there->st_mode)) {
        return -1;
    }
    int file = open(path, O_RDONLY | O_NONBLOCK | O_NOCTTY | O_CLOEXEC);
    if (file >= 0 && (fstat(file, there) != 0 || !S_ISREG(there->st_mode))) {
        close(file);
        return -1;
    }
    return file;
}

/* The bytes of a cache; a cache is replaced by renaming, so a mapped one stays as it is. */
static bool map(const char *path, struct cache *cache) {
    struct stat there;
    int file = open_regular(path, &there);
    if (file < 0) {
        return false;
    }
    cache->length = (size_t)there.st_size;
    void *bytes = mmap(NULL, cache->length, PROT_READ, MAP_PRIVATE, file, 0);
    close(file);
    cache->bytes = bytes;
    return bytes != MAP_FAILED;
}

/* As much of a file as there is room for; false where it can't be read. */
static bool read_front(int file, uint8_t *front, size_t room, size_t *length) {
    for (*length = 0; *length < room;) {
        ssize_t count = read(file, front + *length, room - *length);
        if (count == 0) {
            return true;
        }
        if (count < 0 && errno != EINTR) {
            return false;
        }
        *length += count > 0 ? (size_t)count : 0;
    }
    return true;
}

/* Why there is no answer, or NULL. */
static const char *fault_of(mimelook_report report) {
    switch (report.status) {
    case MIMELOOK_ANSWERED: return NULL;
    case MIMELOOK_NAME_TOO_LONG: return "name too long";
    case MIMELOOK_OUT_OF_MEMORY: return "out of memory";
    default: return "the cache is damaged";
    }
}

/* The answer to a name and a content; NULL is a content that is not available. */
static const char *ask(struct cache cache, const char *name, const uint8_t *content, size_t length, mimelook_answer *answer) {
    return fault_of(mimelook_look_up(cache.bytes, cache.length, (const uint8_t *)name, strlen(name), content, length,
        MIMELOOK_GLOBS_FIRST, answer));
}

/* The answer to a name and the front of a file that is wanted. */
static const char *ask_front(struct cache cache, const char *name, int file, mimelook_answer *answer) {
    size_t room = (size_t)answer->wanted, length;
    uint8_t *front = malloc(room);
    if (front == NULL) {
        return "out of memory";
    }
    const char *fault = read_front(file, front, room, &length) ? ask(cache, name, front, length, answer) : "cannot read";
    free(front);
    return fault;
}

/* The answer to a file, of which nothing is read where its name gives the type. */
static const char *ask_file(struct cache cache, const char *path, mimelook_answer *answer) {
    struct stat there = {0};
    int file = open_regular(path, &there);
    if (file < 0) {
        return S_ISDIR(there.st_mode) ? "cannot read" : "cannot open";
    }
    const char *slash = strrchr(path, '/');
    const char *name = slash != NULL ? slash + 1 : path;
    const char *fault = ask(cache, name, NULL, 0, answer);
    if (fault == NULL && answer->wanted != 0) {
        fault = ask_front(cache, name, file, answer);
    }
    close(file);
    return fault;
}

/* The line of a file, or why it has none. */
static bool print_type(struct cache cache, const char *path) {
    mimelook_answer answer = MIMELOOK_NO_ANSWER;
    const char *fault = ask_file(cache, path, &answer);
    if (fault != NULL) {
        fflush(stdout);
        fprintf(stderr, "example: %s: %s\n", path, fault);
        return false;
    }
    printf("%s: %.*s\n", path, (int)answer.type.length, (const char *)answer.type.at);
    return true;
}

int main(int count, char **words) {
    struct cache cache;
    if (count < 2 || !map(words[1], &cache) || mimelook_check(cache.bytes, cache.length).status != MIMELOOK_ANSWERED) {
        fprintf(stderr, "usage: example CACHE FILE...\n");
        return 2;
    }
    bool are_told = true;
    for (int i = 2; i < count; i++) {
        are_told &= print_type(cache, words[i]);
    }
    return !are_told;
}
