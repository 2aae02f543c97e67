/* The ways in which in_process.c can ask whatever it is linked with. */
#include <stdbool.h>
#include <stddef.h>
#include <stdint.h>
#include <stdio.h>

/* Bytes, which a zero follows. */
struct text {
    const uint8_t *at;
    size_t length;
};

/* A name or a type, and a content or a base. */
struct item {
    struct text first, second;
};

typedef void asking(const struct item *item);

/* The last has no name. */
struct way {
    const char *name;
    asking *ask;
};

extern const struct way WAYS[];
extern struct text cache;
extern bool is_told;

static inline const char *chars(struct text text) {
    return (const char *)text.at;
}

static inline void tell_bytes(const uint8_t *bytes, size_t length, char end) {
    if (is_told) {
        printf("%.*s%c", (int)length, (const char *)bytes, end);
    }
}

/* NULL is told as nothing. */
static inline void tell(const char *word, char end) {
    if (is_told) {
        printf("%s%c", word != NULL ? word : "", end);
    }
}
