/* What the program calls beside the C library: its words, the environment, and errno. Memory is in library/heap.c. */
#include <errno.h>
#include <stddef.h>
#include <stdlib.h>
#include <string.h>

extern char **environ;

static size_t count;
static char **words;

/* The C library hands main's arguments to each constructor too. */
__attribute__((constructor)) static void keep(int argc, char **argv) {
    count = argc > 0 ? (size_t)argc : 0;
    words = argv;
}

/* The text's length, -1 where there is none, or -2 where it does not fit, and then the room is full. */
static long give(const char *text, char *to, size_t room) {
    if (text == NULL) {
        return -1;
    }
    size_t length = strlen(text);
    memcpy(to, text, length < room ? length : room);
    return length <= room ? (long)length : -2;
}

long rattle_arg(size_t at, char *to, size_t room) {
    return give(at < count ? words[at] : NULL, to, room);
}

long rattle_env(const char *name, char *to, size_t room) {
    return give(getenv(name), to, room);
}

/* An entry of the environment, NAME=VALUE, counted from 0. */
long rattle_env_at(size_t at, char *to, size_t room) {
    char **entry = environ;
    while (entry != NULL && *entry != NULL && at > 0) {
        entry++;
        at--;
    }
    return give(entry == NULL ? NULL : *entry, to, room);
}

int rattle_errno(void) {
    return errno;
}

void rattle_set_errno(int number) {
    errno = number;
}
