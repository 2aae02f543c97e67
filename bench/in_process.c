/* Asks whatever it is linked with (ask_mimelook.c, ask_glib.c or ask_xdgmime.c) one way of many items: in_process WAY TURNS CACHE
 * ITEMS. It prints the answers of a first turn, and last the processor's nanoseconds for the quickest of TURNS more. The status is 3
 * where there is no such way. An item is two texts, each its length, in four bytes, its bytes and a zero. */
#include "in_process.h"
#include "read_all.h"
#include <stdlib.h>
#include <string.h>
#include <time.h>

struct text cache;
bool is_told;
static struct item *items;
static size_t item_count;

static asking *asking_of(const char *name) {
    const struct way *way = WAYS;
    while (way->name != NULL && strcmp(way->name, name) != 0) {
        way++;
    }
    return way->ask;
}

static struct text text_at(const uint8_t **at) {
    const uint8_t *head = *at;
    size_t length = (size_t)head[0] << 24 | (size_t)head[1] << 16 | (size_t)head[2] << 8 | head[3];
    *at += 4 + length + 1;
    return (struct text){head + 4, length};
}

static void take_items(const char *path) {
    size_t length;
    const uint8_t *at = read_all(path, &length), *end = at + length;
    items = calloc(length / 10 + 1, sizeof *items);
    while (items != NULL && at < end) {
        items[item_count].first = text_at(&at);
        items[item_count++].second = text_at(&at);
    }
}

static void turn(asking *ask) {
    for (size_t i = 0; i < item_count; i++) {
        ask(&items[i]);
    }
}

/* What callgrind counts. */
__attribute__((noinline)) long timed_turn(asking *ask) {
    struct timespec before, after;
    clock_gettime(CLOCK_PROCESS_CPUTIME_ID, &before);
    turn(ask);
    clock_gettime(CLOCK_PROCESS_CPUTIME_ID, &after);
    return (after.tv_sec - before.tv_sec) * 1000000000L + after.tv_nsec - before.tv_nsec;
}

int main(int count, char **words) {
    if (count != 5) {
        return 2;
    }
    asking *ask = asking_of(words[1]);
    if (ask == NULL) {
        return 3;
    }
    cache.at = read_all(words[3], &cache.length);
    take_items(words[4]);
    /* once, and not measured */
    asking *pay = asking_of("pay");
    if (pay != NULL && strcmp(words[1], "open") != 0) {
        pay(NULL);
    }
    is_told = true;
    turn(ask);
    is_told = false;
    long best = 0;
    for (int i = 0; i < atoi(words[2]); i++) {
        long took = timed_turn(ask);
        best = best == 0 || took < best ? took : best;
    }
    printf("%ld\n", best);
    return 0;
}
