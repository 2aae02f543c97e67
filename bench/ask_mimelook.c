/* libmimelook, for in_process.c: each call is given the bytes of the cache, or with BY_HANDLE a database that was opened once. */
#include "in_process.h"
#include <mimelook.h>
#include <stdlib.h>

#define ROOM 10

static void answered(mimelook_report report) {
    if (report.status != MIMELOOK_ANSWERED) {
        exit(1);
    }
}

#ifdef BY_HANDLE
static mimelook_database *opened(void) {
    static mimelook_database *database;
    if (database == NULL) {
        answered(mimelook_open(cache.at, cache.length, &database));
    }
    return database;
}

#define ASK(call, ...) answered(mimelook_database_##call(opened(), __VA_ARGS__))
#else
#define ASK(call, ...) answered(mimelook_##call(cache.at, cache.length, __VA_ARGS__))
#endif

static void tell_text(mimelook_text text, char end) {
    tell_bytes(text.at, text.length, end);
}

static mimelook_answer look_up(struct text name, const uint8_t *content, size_t length) {
    mimelook_answer answer = MIMELOOK_NO_ANSWER;
    ASK(look_up, name.at, name.length, content, length, MIMELOOK_GLOBS_FIRST, &answer);
    return answer;
}

static void by_name(const struct item *item) {
    tell_text(look_up(item->first, NULL, 0).type, '\n');
}

static void by_both(const struct item *item) {
    tell_text(look_up(item->first, item->second.at, item->second.length).type, '\n');
}

static void by_file(const struct item *item) {
    struct text content = item->second;
    mimelook_answer answer = look_up(item->first, NULL, 0);
    if (answer.wanted != 0) {
        answer = look_up(item->first, content.at, content.length < answer.wanted ? content.length : answer.wanted);
    }
    tell_text(answer.type, '\n');
}

static void by_content(const struct item *item) {
    mimelook_sniffed sniffed;
    ASK(sniff, item->second.at, item->second.length, &sniffed);
    tell_text(sniffed.type, '\n');
}

static void hits(const struct item *item) {
    mimelook_hit hits[ROOM];
    size_t count = 0;
    ASK(hits, item->first.at, item->first.length, hits, ROOM, &count);
    tell_bytes(hits[0].type.at, count != 0 ? hits[0].type.length : 0, '\n');
}

static void tell_is_a(mimelook_text type, const uint8_t *base, size_t length) {
    bool is = false;
    ASK(is_a, type.at, type.length, base, length, &is);
    tell(is ? "yes" : "no", '\n');
}

static void is_a(const struct item *item) {
    struct text type = item->first, base = item->second;
    tell_is_a((mimelook_text){type.at, type.length}, base.at, base.length);
}

static void tell_icons(mimelook_text type, char end) {
    uint8_t icon[MIMELOOK_ICON_ROOM], generic[MIMELOOK_ICON_ROOM];
    mimelook_icon_lengths lengths;
    ASK(icons, type.at, type.length, icon, sizeof icon, generic, sizeof generic, &lengths);
    tell_bytes(icon, lengths.icon, ' ');
    tell_bytes(generic, lengths.generic, end);
}

static void icons(const struct item *item) {
    tell_icons((mimelook_text){item->first.at, item->first.length}, '\n');
}

/* What a file manager asks for each name: its type, its icons, and whether an editor opens it. */
static void whole_item(const struct item *item) {
    static const char TEXT[] = "text/plain";
    mimelook_text type = look_up(item->first, NULL, 0).type;
    tell_text(type, ' ');
    tell_icons(type, ' ');
    tell_is_a(type, (const uint8_t *)TEXT, sizeof TEXT - 1);
}

static void listed_icons(const struct item *item) {
    mimelook_text icon, generic;
    ASK(listed_icons, item->first.at, item->first.length, &icon, &generic);
    tell_text(icon, ' ');
    tell_text(generic, '\n');
}

#ifdef BY_HANDLE
/* Asks so much that all that is read back of a cache is paid for, before anything is measured. */
static void pay(const struct item *item) {
    static const struct item NAME = {{(const uint8_t *)"unknown", 7}, {(const uint8_t *)"", 0}};
    static const struct item TYPES = {{(const uint8_t *)"text/x-csrc", 11}, {(const uint8_t *)"text/none", 9}};
    (void)item;
    for (int i = 0; i < 20000; i++) {
        by_name(&NAME);
        is_a(&TYPES);
        icons(&TYPES);
        if (i % 100 == 0) {
            by_content(&NAME);
        }
    }
}

/* Opens the cache anew, asks one name and closes it. */
static void open_and_ask(const struct item *item) {
    mimelook_database *database;
    mimelook_answer answer = MIMELOOK_NO_ANSWER;
    struct text name = item->first;
    answered(mimelook_open(cache.at, cache.length, &database));
    answered(mimelook_database_look_up(database, name.at, name.length, NULL, 0, MIMELOOK_GLOBS_FIRST, &answer));
    tell_text(answer.type, '\n');
    mimelook_close(database);
}
#endif

const struct way WAYS[] = {
    {"name", by_name}, {"both", by_both},   {"file", by_file},
    {"hits", hits},    {"is_a", is_a},      {"content", by_content},
    {"icons", icons},  {"item", whole_item}, {"listed_icons", listed_icons},
#ifdef BY_HANDLE
    {"open", open_and_ask}, {"pay", pay},
#endif
    {NULL, NULL},
};
