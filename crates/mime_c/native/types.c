/* What is asked of types: with each status, and what stays as it was. */
#include "asked.h"

#define CUT_HEADER 40

static mimelook_report is_a(size_t length, const char *type, const char *base, bool *is) {
    return mimelook_is_a(SAMPLE, length, bytes_of(type), strlen(type), bytes_of(base), strlen(base), is);
}

static void subclasses(void) {
    bool is = false;
    CHECK(is_a(sizeof SAMPLE, "t/h", "t/m", &is).status == MIMELOOK_ANSWERED && is);
    CHECK(is_a(sizeof SAMPLE, "t/g", "t/h", &is).status == MIMELOOK_ANSWERED && is);
    CHECK(is_a(sizeof SAMPLE, "t/m", "t/g", &is).status == MIMELOOK_ANSWERED && !is);
    CHECK(is_a(sizeof SAMPLE, "text/x-c", "text/plain", &is).status == MIMELOOK_ANSWERED && is);
    CHECK(is_a(sizeof SAMPLE, "t/m", "tg", &is).status == MIMELOOK_NOT_A_TYPE && is);
    CHECK(is_a(sizeof SAMPLE, "/t", "t/g", &is).status == MIMELOOK_NOT_A_TYPE && is);
    CHECK(is_a(0, "t", "t/g", &is).status == MIMELOOK_NOT_A_TYPE && is);
    CHECK(is_a(39, "t/m", "t/g", &is).status == MIMELOOK_TRUNCATED && is);
    mimelook_report report = is_a(CUT_HEADER, "t/m", "t/g", &is);
    CHECK(report.status == MIMELOOK_OUT_OF_RANGE && report.at == 40 && is);
    CHECK(mimelook_is_a(SAMPLE, sizeof SAMPLE, NULL, 0, NULL, 0, &is).status == MIMELOOK_NOT_A_TYPE && is);
}

static uint8_t icon[MIMELOOK_ICON_ROOM], generic[MIMELOOK_ICON_ROOM];

static mimelook_report icons(size_t length, const char *type, size_t icon_room, size_t generic_room,
    mimelook_icon_lengths *lengths) {
    memset(icon, '?', sizeof icon);
    memset(generic, '?', sizeof generic);
    lengths->icon = lengths->generic = 77;
    return mimelook_icons(SAMPLE, length, bytes_of(type), strlen(type), icon, icon_room, generic, generic_room, lengths);
}

static bool are_left(mimelook_icon_lengths lengths) {
    return icon[0] == '?' && generic[0] == '?' && lengths.icon == 77 && lengths.generic == 77;
}

static void icons_of_types(void) {
    mimelook_icon_lengths lengths;
    CHECK(icons(sizeof SAMPLE, "t/h", sizeof icon, sizeof generic, &lengths).status == MIMELOOK_ANSWERED);
    CHECK(lengths.icon == 3 && memcmp(icon, "t-g?", 4) == 0);
    CHECK(lengths.generic == 11 && memcmp(generic, "t-x-generic?", 12) == 0);
    CHECK(icons(sizeof SAMPLE, "t/h", 3, 11, &lengths).status == MIMELOOK_ANSWERED && lengths.icon == 3);
    CHECK(icon[3] == '?' && generic[11] == '?');
    CHECK(icons(sizeof SAMPLE, "t/h", 2, 11, &lengths).status == MIMELOOK_SHORT_BUFFER && are_left(lengths));
    CHECK(icons(sizeof SAMPLE, "t/h", 3, 10, &lengths).status == MIMELOOK_SHORT_BUFFER && are_left(lengths));
    CHECK(icons(sizeof SAMPLE, "/t", 3, 11, &lengths).status == MIMELOOK_NOT_A_TYPE && are_left(lengths));
    CHECK(icons(39, "t/h", 3, 11, &lengths).status == MIMELOOK_TRUNCATED && are_left(lengths));
    mimelook_report report = icons(CUT_HEADER, "t/h", 3, 11, &lengths);
    CHECK(report.status == MIMELOOK_OUT_OF_RANGE && report.at == 40 && are_left(lengths));
    char longest[256];
    memset(longest, 'a', 255);
    memcpy(longest + 253, "/b", 3);
    CHECK(icons(sizeof SAMPLE, longest, sizeof icon, sizeof generic, &lengths).status == MIMELOOK_ANSWERED);
    CHECK(lengths.icon == 255 && lengths.generic == 263);
}

int main(void) {
    subclasses();
    icons_of_types();
    return told();
}
