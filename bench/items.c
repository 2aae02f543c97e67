/* Asks libmimelook what a file manager asks for each item of a folder: the type of its name, the icons of that, and whether it is
 * text/plain. items INPUTS, a file of texts, the cache and then the names, each its length, in four bytes, its bytes and a zero. It prints
 * a digest of all answers. With BY_HANDLE the cache is kept open, and else given in each call. */
#include "read_all.h"
#include <mimelook.h>
#include <stdbool.h>
#include <stdint.h>

struct text {
    const uint8_t *at;
    size_t length;
};

static struct text cache;
static uint64_t digest = 0xcbf29ce484222325;

static void answered(mimelook_report report) {
    if (report.status != MIMELOOK_ANSWERED) {
        exit(1);
    }
}

#ifdef BY_HANDLE
static mimelook_database *database;

static void open_cache(void) {
    answered(mimelook_open(cache.at, cache.length, &database));
}

static void close_cache(void) {
    mimelook_close(database);
}

#define ASK(call, ...) answered(mimelook_database_##call(database, __VA_ARGS__))
#else
static void open_cache(void) {
}

static void close_cache(void) {
}

#define ASK(call, ...) answered(mimelook_##call(cache.at, cache.length, __VA_ARGS__))
#endif

static void add(const uint8_t *bytes, size_t length) {
    for (size_t i = 0; i < length; i++) {
        digest = (digest ^ bytes[i]) * 0x100000001b3;
    }
}

static void ask_item(struct text name) {
    static const uint8_t TEXT[] = "text/plain";
    uint8_t icon[MIMELOOK_ICON_ROOM], generic[MIMELOOK_ICON_ROOM];
    mimelook_answer answer = MIMELOOK_NO_ANSWER;
    mimelook_icon_lengths lengths;
    bool is = false;
    ASK(look_up, name.at, name.length, NULL, 0, MIMELOOK_GLOBS_FIRST, &answer);
    mimelook_text type = answer.type;
    ASK(icons, type.at, type.length, icon, sizeof icon, generic, sizeof generic, &lengths);
    ASK(is_a, type.at, type.length, TEXT, sizeof TEXT - 1, &is);
    add(type.at, type.length);
    add(icon, lengths.icon);
    add(generic, lengths.generic);
    add((const uint8_t[]){is}, 1);
}

static struct text next_text(const uint8_t **at) {
    const uint8_t *head = *at;
    size_t length = (size_t)head[0] << 24 | (size_t)head[1] << 16 | (size_t)head[2] << 8 | head[3];
    *at += 4 + length + 1;
    return (struct text){head + 4, length};
}

int main(int count, char **words) {
    if (count != 2) {
        return 2;
    }
    size_t length;
    const uint8_t *at = read_all(words[1], &length), *end = at + length;
    cache = next_text(&at);
    open_cache();
    while (at < end) {
        ask_item(next_text(&at));
    }
    close_cache();
    printf("%016llx\n", (unsigned long long)digest);
    return 0;
}
