/* What the lists of a cache say of a type, and its extent: with each status, and what stays as it was. */
#include "asked.h"

#define CUT_HEADER 40
#define PARENTS_OF_T_G 0x3c /* where the sample has the offset of the parents of t/g */
#define ICONS 32            /* where a header has the offset of the icon list; that of the generic icons comes next */

static const uint8_t before[] = "before";

static bool is_left(mimelook_text text) {
    return text.at == before && text.length == 6;
}

static mimelook_text text;

static mimelook_report unalias(const uint8_t *cache, size_t length, const char *type) {
    text = (mimelook_text){before, 6};
    return mimelook_unalias(cache, length, bytes_of(type), strlen(type), &text);
}

static void alias_steps(void) {
    CHECK(unalias(SAMPLE, sizeof SAMPLE, "t/h").status == MIMELOOK_ANSWERED && is_text(text, "t/g") && text.at == SAMPLE + T_G);
    static const char type[] = "t/g";
    CHECK(unalias(SAMPLE, sizeof SAMPLE, type).status == MIMELOOK_ANSWERED && is_text(text, "t/g") && text.at == bytes_of(type));
    CHECK(unalias(SAMPLE, sizeof SAMPLE, "no type").status == MIMELOOK_ANSWERED && is_text(text, "no type"));
    CHECK(unalias(SAMPLE, 39, "t/h").status == MIMELOOK_TRUNCATED && is_left(text));
    mimelook_report report = unalias(SAMPLE, CUT_HEADER, "t/h");
    CHECK(report.status == MIMELOOK_OUT_OF_RANGE && report.at == 40 && is_left(text));
    CHECK(unalias(NULL, 0, "t/h").status == MIMELOOK_TRUNCATED && is_left(text));
    CHECK(mimelook_unalias(SAMPLE, sizeof SAMPLE, NULL, 0, &text).status == MIMELOOK_ANSWERED && text.length == 0);
}

static mimelook_text parents[3];
static size_t count;

static mimelook_report ask_parents(const uint8_t *cache, size_t length, const char *type, size_t room) {
    for (size_t i = 0; i < 3; i++) {
        parents[i] = (mimelook_text){before, 6};
    }
    count = 77;
    return mimelook_parents(cache, length, bytes_of(type), strlen(type), parents, room, &count);
}

static bool are_left(void) {
    return is_left(parents[0]) && is_left(parents[1]) && is_left(parents[2]) && count == 77;
}

static void parents_of_types(void) {
    CHECK(ask_parents(SAMPLE, sizeof SAMPLE, "t/g", 3).status == MIMELOOK_ANSWERED && count == 1 && is_text(parents[0], "t/m"));
    CHECK(is_left(parents[1]) && is_left(parents[2]));
    CHECK(ask_parents(SAMPLE, sizeof SAMPLE, "t/g", 0).status == MIMELOOK_ANSWERED && count == 1 && is_left(parents[0]));
    CHECK(ask_parents(SAMPLE, sizeof SAMPLE, "t/h", 3).status == MIMELOOK_ANSWERED && count == 0 && is_left(parents[0]));
    CHECK(ask_parents(SAMPLE, 39, "t/g", 3).status == MIMELOOK_TRUNCATED && are_left());
    mimelook_report report = ask_parents(SAMPLE, 52, "t/g", 3);
    CHECK(report.status == MIMELOOK_OUT_OF_RANGE && report.at == 52 && are_left());
    CHECK(mimelook_parents(NULL, 0, NULL, 0, NULL, 0, &count).status == MIMELOOK_TRUNCATED && count == 77);
    CHECK(mimelook_parents(SAMPLE, sizeof SAMPLE, NULL, 0, NULL, 0, &count).status == MIMELOOK_ANSWERED && count == 0);
    CHECK(mimelook_parents(SAMPLE, sizeof SAMPLE, bytes_of("t/g"), 3, NULL, 0, &count).status == MIMELOOK_ANSWERED && count == 1);
}

static void several_parents(void) {
    static const uint32_t numbers[] = {3, MK, T_M, T_H};
    uint8_t cache[sizeof SAMPLE + sizeof numbers];
    lead_to(cache, PARENTS_OF_T_G, numbers, 4);
    CHECK(ask_parents(cache, sizeof cache, "t/g", 3).status == MIMELOOK_ANSWERED && count == 3);
    CHECK(is_text(parents[0], "mk") && is_text(parents[1], "t/m") && is_text(parents[2], "t/h"));
    CHECK(ask_parents(cache, sizeof cache, "t/g", 2).status == MIMELOOK_ANSWERED && count == 3);
    CHECK(is_text(parents[0], "mk") && is_text(parents[1], "t/m") && is_left(parents[2]));
    mimelook_report report = ask_parents(cache, sizeof cache - 1, "t/g", 3);
    CHECK(report.status == MIMELOOK_OUT_OF_RANGE && report.at == sizeof SAMPLE && are_left());
}

static mimelook_text generic;

static mimelook_report listed_icons(const uint8_t *cache, size_t length, const char *type) {
    text = generic = (mimelook_text){before, 6};
    return mimelook_listed_icons(cache, length, bytes_of(type), strlen(type), &text, &generic);
}

static void icons_that_are_listed(void) {
    static const uint32_t numbers[] = {1, T_G, MK, 1, T_M, T_H};
    uint8_t cache[sizeof SAMPLE + sizeof numbers];
    lead_to(cache, ICONS, numbers, 6);
    put(cache + ICONS + 4, sizeof SAMPLE + 12);
    CHECK(listed_icons(cache, sizeof cache, "t/g").status == MIMELOOK_ANSWERED && is_text(text, "mk") && generic.length == 0);
    CHECK(listed_icons(cache, sizeof cache, "t/m").status == MIMELOOK_ANSWERED && text.length == 0 && is_text(generic, "t/h"));
    CHECK(listed_icons(cache, sizeof cache, "t/h").status == MIMELOOK_ANSWERED && text.length == 0 && generic.length == 0);
    CHECK(listed_icons(SAMPLE, sizeof SAMPLE, "t/g").status == MIMELOOK_ANSWERED && text.length == 0 && generic.length == 0);
    CHECK(listed_icons(cache, 39, "t/g").status == MIMELOOK_TRUNCATED && is_left(text) && is_left(generic));
    mimelook_report report = listed_icons(cache, sizeof cache - 1, "t/g");
    CHECK(report.status == MIMELOOK_OUT_OF_RANGE && report.at == sizeof SAMPLE + 12 && is_left(text) && is_left(generic));
    report = mimelook_listed_icons(SAMPLE, sizeof SAMPLE, NULL, 0, &text, &generic);
    CHECK(report.status == MIMELOOK_ANSWERED && text.length == 0 && generic.length == 0);
    CHECK(mimelook_listed_icons(NULL, 0, NULL, 0, &text, &generic).status == MIMELOOK_TRUNCATED);
}

static uint64_t extent(const uint8_t *cache, size_t length, uint32_t status, uint64_t at) {
    uint64_t size = 77;
    mimelook_report report = mimelook_extent(cache, length, &size);
    CHECK(report.status == status && report.at == at && report.read == 0);
    return size;
}

static void extents(void) {
    CHECK(extent(SAMPLE, sizeof SAMPLE, MIMELOOK_ANSWERED, 0) == 3);
    uint8_t cache[sizeof SAMPLE];
    memcpy(cache, SAMPLE, sizeof SAMPLE);
    put(cache + 0x98, UINT32_MAX);
    CHECK(extent(cache, sizeof cache, MIMELOOK_ANSWERED, 0) == UINT32_MAX);
    CHECK(extent(SAMPLE, 0x9f, MIMELOOK_OUT_OF_RANGE, 0x94) == 77);
    CHECK(extent(SAMPLE, 39, MIMELOOK_TRUNCATED, 0) == 77);
    CHECK(extent(NULL, 0, MIMELOOK_TRUNCATED, 0) == 77);
}

int main(void) {
    alias_steps();
    parents_of_types();
    several_parents();
    icons_that_are_listed();
    extents();
    return told();
}
