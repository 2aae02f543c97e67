/* Each allocation of each call refused in turn, alone and with all after it: the call then says that it is out of memory,
 * leaves what it was given as it was, and gives back what it took. Linked with --wrap=malloc, --wrap=realloc, --wrap=free. */
#include "asked.h"
#include <stdlib.h>

void *__real_malloc(size_t length);
void *__real_realloc(void *block, size_t length);
void __real_free(void *block);
void *__wrap_malloc(size_t length);
void *__wrap_realloc(void *block, size_t length);
void __wrap_free(void *block);

static long made, refused, kept;
static bool are_all_after;

static bool is_refused(void) {
    made++;
    return refused != 0 && (are_all_after ? made >= refused : made == refused);
}

void *__wrap_malloc(size_t length) {
    void *block = is_refused() ? NULL : __real_malloc(length);
    kept += block != NULL;
    return block;
}

void *__wrap_realloc(void *block, size_t length) {
    return is_refused() ? NULL : __real_realloc(block, length);
}

void __wrap_free(void *block) {
    kept -= block != NULL;
    __real_free(block);
}

/* A call over the sample, and whether it left what it was given as it was. */
typedef mimelook_report call(bool *is_left);

static const uint8_t before[] = "before";

/* A lookup, and whether the answer is as it was. */
static mimelook_report looked_up(const char *name, const char *content, size_t length, uint32_t order, bool *is_left) {
    mimelook_answer answer = {{before, 6}, 77, {7, 7, 7}};
    mimelook_report report = mimelook_look_up(SAMPLE, sizeof SAMPLE, bytes_of(name), strlen(name), bytes_of(content), length, order,
        &answer);
    *is_left = answer.type.at == before && answer.type.length == 6 && answer.wanted == 77 && answer.spare[0] == 7;
    return report;
}

static mimelook_report by_name(bool *is_left) {
    return looked_up("A.GZ", NULL, 0, MIMELOOK_GLOBS_FIRST, is_left);
}

static mimelook_report by_content(bool *is_left) {
    return looked_up("x", "\x1f\x8b\x08", 3, MIMELOOK_MAGIC_FIRST, is_left);
}

static const uint32_t three[] = {3, MK, T_M, T_H};
static uint8_t three_parents[sizeof SAMPLE + sizeof three];

static mimelook_report is_a(bool *is_left) {
    bool is = false;
    mimelook_report report = mimelook_is_a(three_parents, sizeof three_parents, bytes_of("t/h"), 3, bytes_of("t/m"), 3, &is);
    *is_left = !is;
    return report;
}

/* A type whose icons have long names: short ones take no memory. */
static const char long_type[] = "aaaaaaaaaaaaaaaaaaaaaaaaaaaaaaaaaaaaaaaa/bbbbbbbbbbbbbbbbbbbb";

static mimelook_report icons(bool *is_left) {
    uint8_t icon[64] = "before", generic[64] = "before";
    mimelook_icon_lengths lengths = {77, 77};
    mimelook_report report = mimelook_icons(SAMPLE, sizeof SAMPLE, bytes_of(long_type), sizeof long_type - 1, icon, sizeof icon,
        generic, sizeof generic, &lengths);
    *is_left = icon[0] == 'b' && generic[0] == 'b' && lengths.icon == 77 && lengths.generic == 77;
    return report;
}

static mimelook_report parents(bool *is_left) {
    mimelook_text parent = {before, 6};
    size_t count = 77;
    mimelook_report report = mimelook_parents(three_parents, sizeof three_parents, bytes_of("t/g"), 3, &parent, 1, &count);
    *is_left = parent.at == before && parent.length == 6 && count == 77;
    return report;
}

static uint8_t many[2048];
static size_t many_length;

/* Makes a cache of 25 rules that match one name. */
static void make_many(void) {
    char globs2[25 * 11 + 1] = "";
    for (int i = 0; i < 25; i++) {
        char *line = memcpy(globs2 + 11 * i, "10:t/a:*.q\n", 11);
        line[0] = (char)(line[0] + i / 10);
        line[1] = (char)(line[1] + i % 10);
        line[5] = (char)(line[5] + i);
    }
    mimelook_text none = {NULL, 0};
    mimelook_directory directory = {{bytes_of(globs2), sizeof globs2 - 1}, none, none, none, none, none};
    CHECK(mimelook_merge(&directory, 1, many, sizeof many, &many_length).status == MIMELOOK_ANSWERED);
}

static mimelook_report hits(bool *is_left) {
    mimelook_hit hit = {{before, 6}, 77, 7, 7, {7, 7}};
    size_t count = 77;
    mimelook_report report = mimelook_hits(many, many_length, bytes_of("A.Q"), 3, &hit, 1, &count);
    *is_left = hit.type.at == before && hit.type.length == 6 && hit.weight == 77 && hit.kept == 7 && count == 77;
    return report;
}

/* A directory of which some of each file is merged. */
static mimelook_directory directory(void) {
    static const char globs2[] = "50:t/m:mk\n60:t/z:*.z\n70:t/y:[ab]*.y\n", aliases[] = "t/h t/g\n", icons[] = "t/g:lens\n";
    static const char magic[] = "MIME-Magic\0\n[40:t/g]\n>0=\0\2\x1f\x8b&\xff\xff\n1>4=\0\1x\n";
    mimelook_text text = {bytes_of(aliases), sizeof aliases - 1}, icon = {bytes_of(icons), sizeof icons - 1};
    return (mimelook_directory){{bytes_of(globs2), sizeof globs2 - 1}, {bytes_of(magic), sizeof magic - 1}, text, text, icon, icon};
}

/* The status of a merging, as a report. */
static mimelook_report merge(bool *is_left) {
    mimelook_directory one = directory();
    uint8_t cache[1024] = "before";
    size_t length = 77;
    mimelook_merge_report report = mimelook_merge(&one, 1, cache, sizeof cache, &length);
    *is_left = cache[0] == 'b' && length == 77;
    return (mimelook_report){.status = report.status};
}

static mimelook_report open_directories(bool *is_left) {
    mimelook_directory one = directory();
    mimelook_database *database = (mimelook_database *)(uintptr_t)7;
    mimelook_merge_report report = mimelook_open_directories(&one, 1, &database);
    *is_left = database == NULL;
    mimelook_close(database);
    return (mimelook_report){.status = report.status};
}

/* Calls that take no memory: they answer where all of it is refused. */
static void take_none(void) {
    static mimelook_text text, other;
    static mimelook_sniffed sniffed;
    uint8_t icon[8], generic[16];
    mimelook_icon_lengths lengths;
    uint64_t extent;
    bool is = false;
    made = 0;
    refused = 1;
    are_all_after = true;
    CHECK(mimelook_unalias(SAMPLE, sizeof SAMPLE, bytes_of("t/h"), 3, &text).status == MIMELOOK_ANSWERED);
    CHECK(mimelook_listed_icons(SAMPLE, sizeof SAMPLE, bytes_of("t/h"), 3, &text, &other).status == MIMELOOK_ANSWERED);
    CHECK(mimelook_extent(SAMPLE, sizeof SAMPLE, &extent).status == MIMELOOK_ANSWERED);
    CHECK(mimelook_sniff(SAMPLE, sizeof SAMPLE, bytes_of("\x1f\x8b\x08"), 3, &sniffed).status == MIMELOOK_ANSWERED);
    CHECK(mimelook_is_a(SAMPLE, sizeof SAMPLE, bytes_of("t/h"), 3, bytes_of("t/m"), 3, &is).status == MIMELOOK_ANSWERED && is);
    CHECK(mimelook_icons(SAMPLE, sizeof SAMPLE, bytes_of("t/h"), 3, icon, sizeof icon, generic, sizeof generic, &lengths).status
        == MIMELOOK_ANSWERED);
    CHECK(mimelook_is_type_name(bytes_of("t/h"), 3) && made == 0);
    refused = 0;
}

/* Opens a cache with all the memory there is, whatever is refused to the call after it. */
static mimelook_database *opened(const uint8_t *cache, size_t length) {
    long turn = refused, count = made;
    mimelook_database *database;
    refused = 0;
    CHECK(mimelook_open(cache, length, &database).status == MIMELOOK_ANSWERED);
    made = count;
    refused = turn;
    return database;
}

static mimelook_report open_sample(bool *is_left) {
    mimelook_database *database = (mimelook_database *)(uintptr_t)7;
    mimelook_report report = mimelook_open(SAMPLE, sizeof SAMPLE, &database);
    *is_left = database == NULL;
    mimelook_close(database);
    return report;
}

/* A lookup by a handle. */
static mimelook_report database_looked_up(const char *name, const char *content, size_t length, uint32_t order, bool *is_left) {
    mimelook_answer answer = {{before, 6}, 77, {7, 7, 7}};
    mimelook_database *database = opened(SAMPLE, sizeof SAMPLE);
    mimelook_report report = mimelook_database_look_up(database, bytes_of(name), strlen(name), bytes_of(content), length, order, &answer);
    *is_left = answer.type.at == before && answer.type.length == 6 && answer.wanted == 77 && answer.spare[0] == 7;
    mimelook_close(database);
    return report;
}

static mimelook_report database_by_name(bool *is_left) {
    return database_looked_up("A.GZ", NULL, 0, MIMELOOK_GLOBS_FIRST, is_left);
}

static mimelook_report database_by_content(bool *is_left) {
    return database_looked_up("x", "\x1f\x8b\x08", 3, MIMELOOK_MAGIC_FIRST, is_left);
}

static mimelook_report database_is_a(bool *is_left) {
    bool is = false;
    mimelook_database *database = opened(three_parents, sizeof three_parents);
    mimelook_report report = mimelook_database_is_a(database, bytes_of("t/h"), 3, bytes_of("t/m"), 3, &is);
    *is_left = !is;
    mimelook_close(database);
    return report;
}

static mimelook_report database_icons(bool *is_left) {
    uint8_t icon[64] = "before", generic[64] = "before";
    mimelook_icon_lengths lengths = {77, 77};
    mimelook_database *database = opened(SAMPLE, sizeof SAMPLE);
    mimelook_report report = mimelook_database_icons(database, bytes_of(long_type), sizeof long_type - 1, icon, sizeof icon, generic,
        sizeof generic, &lengths);
    *is_left = icon[0] == 'b' && generic[0] == 'b' && lengths.icon == 77 && lengths.generic == 77;
    mimelook_close(database);
    return report;
}

static mimelook_report database_parents(bool *is_left) {
    mimelook_text parent = {before, 6};
    size_t count = 77;
    mimelook_database *database = opened(three_parents, sizeof three_parents);
    mimelook_report report = mimelook_database_parents(database, bytes_of("t/g"), 3, &parent, 1, &count);
    *is_left = parent.at == before && parent.length == 6 && count == 77;
    mimelook_close(database);
    return report;
}

static mimelook_report database_hits(bool *is_left) {
    mimelook_hit hit = {{before, 6}, 77, 7, 7, {7, 7}};
    size_t count = 77;
    mimelook_database *database = opened(many, many_length);
    mimelook_report report = mimelook_database_hits(database, bytes_of("A.Q"), 3, &hit, 1, &count);
    *is_left = hit.type.at == before && hit.type.length == 6 && hit.weight == 77 && hit.kept == 7 && count == 77;
    mimelook_close(database);
    return report;
}

/* Reading back is refused all memory once it is paid: contents are sniffed by a walk as before, and it isn't tried again. */
static void refuse_reading_back(void) {
    static mimelook_sniffed sniffed;
    mimelook_database *database = opened(SAMPLE, sizeof SAMPLE);
    long tried = 0;
    are_all_after = true;
    for (int turn = 0; turn < 200; turn++) {
        made = 0;
        refused = 1;
        CHECK(mimelook_database_sniff(database, bytes_of("\x1f\x8b\x08"), 3, &sniffed).status == MIMELOOK_ANSWERED);
        CHECK(is_text(sniffed.type, "t/g"));
        tried += made != 0;
    }
    refused = 0;
    CHECK(tried == 1);
    mimelook_close(database);
    CHECK(kept == 0);
}

static void refuse_in_turn(const char *what, call *ask) {
    bool is_left = false, is_kept = true;
    made = refused = 0;
    CHECK(ask(&is_left).status == MIMELOOK_ANSWERED && !is_left && kept == 0);
    long all = made;
    printf("%s: %ld allocations\n", what, all);
    for (int after = 0; after < 2; after++) {
        are_all_after = after;
        for (long turn = 1; turn <= all; turn++) {
            made = 0;
            refused = turn;
            is_kept &= ask(&is_left).status == MIMELOOK_OUT_OF_MEMORY && is_left && kept == 0;
        }
    }
    refused = 0;
    check(is_kept && all > 0, what, __LINE__);
}

int main(void) {
    lead_to(three_parents, 0x3c, three, 4);
    refuse_in_turn("look_up by name", by_name);
    refuse_in_turn("look_up by content", by_content);
    refuse_in_turn("is_a", is_a);
    refuse_in_turn("icons", icons);
    refuse_in_turn("parents", parents);
    refuse_in_turn("merge", merge);
    make_many();
    refuse_in_turn("hits", hits);
    refuse_in_turn("open", open_sample);
    refuse_in_turn("open_directories", open_directories);
    refuse_in_turn("database_look_up by name", database_by_name);
    refuse_in_turn("database_look_up by content", database_by_content);
    refuse_in_turn("database_is_a", database_is_a);
    refuse_in_turn("database_icons", database_icons);
    refuse_in_turn("database_parents", database_parents);
    refuse_in_turn("database_hits", database_hits);
    refuse_reading_back();
    take_none();
    return told();
}
