/* The three functions that the library calls for memory: those of the C library. */
#include <stdbool.h>
#include <stddef.h>
#include <stdlib.h>

struct tried {
    bool is_given;
    void *block;
};

static char nothing;

static struct tried tried(void *block) {
    return (struct tried){block != NULL, block != NULL ? block : &nothing};
}

struct tried rattle_alloc(size_t length, size_t align) {
    return tried(malloc(length != 0 ? length : align));
}

struct tried rattle_realloc(void *block, size_t kept, size_t length, size_t align) {
    (void)kept;
    return tried(realloc(block, length != 0 ? length : align));
}

void rattle_dealloc(void *block) {
    free(block);
}
