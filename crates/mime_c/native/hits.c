/* The globs that match a name: with each status, and what stays as it was. */
#define _DEFAULT_SOURCE
#include "asked.h"
#include <stdlib.h>
#include <sys/mman.h>

#define ROOM 6
#define LITERAL_FLAGS 0x56 /* where the sample has the flags of its literal rule */
#define ENDING_TYPE 0x88   /* and the type of its other rule */
#define ANSWERS(expected) (report.status == MIMELOOK_ANSWERED && count == (expected))

static const uint8_t before[] = "before";
static mimelook_hit found[ROOM];
static size_t count;

/* The hits of a name, for which there is that much room, in an array that was filled before. */
static mimelook_report ask(const uint8_t *cache, size_t length, const char *name, size_t size, size_t room) {
    for (size_t i = 0; i < ROOM; i++) {
        found[i] = (mimelook_hit){{before, 6}, 777, 77, 77, {7, 7}};
    }
    count = 77;
    return mimelook_hits(cache, length, bytes_of(name), size, found, room, &count);
}

static mimelook_report ask_sample(const char *name) {
    return ask(SAMPLE, sizeof SAMPLE, name, strlen(name), ROOM);
}

static bool is_hit(mimelook_hit hit, const char *type, uint32_t weight, uint16_t case_sensitive, uint16_t kept) {
    return is_text(hit.type, type) && hit.weight == weight && hit.case_sensitive == case_sensitive && hit.kept == kept
        && hit.spare[0] == 0 && hit.spare[1] == 0;
}

/* Whether the hits from a place on are as they were. */
static bool are_left_from(size_t place) {
    bool are_left = true;
    for (size_t i = place; i < ROOM; i++) {
        are_left &= found[i].type.at == before && found[i].type.length == 6 && found[i].weight == 777 && found[i].case_sensitive == 77
            && found[i].kept == 77 && found[i].spare[0] == 7 && found[i].spare[1] == 7;
    }
    return are_left;
}

static bool are_left(void) {
    return are_left_from(0) && count == 77;
}

static void hits_of_the_sample(void) {
    mimelook_report report = ask_sample("mk");
    CHECK(ANSWERS(1) && is_hit(found[0], "t/m", 50, 0, 1) && found[0].type.at == SAMPLE + T_M && are_left_from(1));
    CHECK(report.at == 0 && report.read == 0 && report.nodes != 0 && report.bytes != 0 && report.spare[0] == 0);
    report = ask_sample("MK");
    CHECK(ANSWERS(1) && is_hit(found[0], "t/m", 50, 0, 1));
    report = ask_sample("A.GZ");
    CHECK(ANSWERS(1) && is_hit(found[0], "t/g", 50, 0, 1) && are_left_from(1));
    report = ask_sample("x");
    CHECK(ANSWERS(0) && are_left_from(0));
    uint8_t cache[sizeof SAMPLE];
    memcpy(cache, SAMPLE, sizeof SAMPLE);
    cache[LITERAL_FLAGS] = 1;
    put(cache + ENDING_TYPE, T_H);
    report = ask(cache, sizeof cache, "mk", 2, ROOM);
    CHECK(ANSWERS(1) && is_hit(found[0], "t/m", 50, 1, 1));
    report = ask(cache, sizeof cache, "MK", 2, ROOM);
    CHECK(ANSWERS(0) && are_left_from(0));
    /* an alias is given as it is */
    report = ask(cache, sizeof cache, "A.GZ", 4, ROOM);
    CHECK(ANSWERS(1) && is_hit(found[0], "t/h", 50, 0, 1));
}

static uint8_t merged[1024];

/* Makes a cache of these rules. */
static size_t merge(const char *globs2) {
    mimelook_directory directory = {{bytes_of(globs2), strlen(globs2)}, {NULL, 0}, {NULL, 0}, {NULL, 0}, {NULL, 0}, {NULL, 0}};
    size_t length = 0;
    CHECK(mimelook_merge(&directory, 1, merged, sizeof merged, &length).status == MIMELOOK_ANSWERED);
    return length;
}

/* A literal name, endings by weight, by length and by case, and another pattern. */
static void several_hits(void) {
    size_t length = merge("70:t/star:m*\n255:t/light:*z\n60:t/name:m.gz\n0:t/one:*.gz\n0:t/two:*.GZ:cs\n");
    for (size_t room = 0; room <= ROOM; room++) {
        mimelook_report report = ask(merged, length, "M.GZ", 4, room);
        CHECK(ANSWERS(5) && are_left_from(room));
        CHECK(room < 1 || is_hit(found[0], "t/name", 60, 0, 1));
        CHECK(room < 2 || is_hit(found[1], "t/light", 255, 0, 0));
        CHECK(room < 3 || is_hit(found[2], "t/two", 0, 1, 0));
        CHECK(room < 4 || is_hit(found[3], "t/one", 0, 0, 0));
        CHECK(room < 5 || is_hit(found[4], "t/star", 70, 0, 0));
    }
    CHECK(are_left_from(5));
}

/* Those that are alike are all kept, in the order of the rules. */
static void several_kept(void) {
    size_t length = merge("50:t/b:*.q\n40:t/c:*.q\n50:t/a:*.Q\n50:t/d:*.qq\n");
    mimelook_report report = ask(merged, length, "x.q", 3, ROOM);
    CHECK(ANSWERS(3) && is_hit(found[0], "t/b", 50, 0, 1) && is_hit(found[1], "t/a", 50, 0, 1) && is_hit(found[2], "t/c", 40, 0, 0));
    report = ask(merged, length, "x.q", 3, 1);
    CHECK(ANSWERS(3) && is_hit(found[0], "t/b", 50, 0, 1) && are_left_from(1));
}

static void faults(void) {
    CHECK(ask(SAMPLE, 39, "mk", 2, ROOM).status == MIMELOOK_TRUNCATED && are_left());
    mimelook_report report = ask(SAMPLE, 40, "mk", 2, ROOM);
    CHECK(report.status == MIMELOOK_OUT_OF_RANGE && report.at == 72 && are_left());
    uint8_t cache[sizeof SAMPLE + 256];
    memcpy(cache, SAMPLE, sizeof SAMPLE);
    memset(cache + sizeof SAMPLE, 'a', 256);
    put(cache + ENDING_TYPE, sizeof SAMPLE);
    report = ask(cache, sizeof cache, "A.GZ", 4, ROOM);
    CHECK(report.status == MIMELOOK_LONG_TEXT && report.at == sizeof SAMPLE && are_left());
    /* the node `z` is its own child, so that each `z` takes two of the 60 records */
    memcpy(cache, SAMPLE, sizeof SAMPLE);
    cache[0x6b] = 0x60;
    char name[31];
    memset(name, 'z', sizeof name);
    report = ask(cache, sizeof SAMPLE, name, 30, ROOM);
    CHECK(ANSWERS(0) && are_left_from(0));
    CHECK(ask(cache, sizeof SAMPLE, name, 31, ROOM).status == MIMELOOK_SPENT && are_left());
}

static void nulls(void) {
    CHECK(mimelook_hits(NULL, 0, NULL, 0, NULL, 0, &count).status == MIMELOOK_TRUNCATED);
    mimelook_report report = mimelook_hits(SAMPLE, sizeof SAMPLE, NULL, 0, NULL, 0, &count);
    CHECK(ANSWERS(0));
    report = mimelook_hits(SAMPLE, sizeof SAMPLE, bytes_of("mk"), 2, NULL, 0, &count);
    CHECK(ANSWERS(1));
    mimelook_hit nothing = {{NULL, 0}, 0, 0, 0, {0, 0}};
    report = mimelook_hits(SAMPLE, sizeof SAMPLE, bytes_of("mk"), 2, &nothing, 1, &count);
    CHECK(ANSWERS(1) && is_hit(nothing, "t/m", 50, 0, 1));
}

/* Names of 4,096 and 4,097 bytes, each in a block of just their size; no length is too long before a cache. */
static void long_names(void) {
    for (size_t length = 4096; length <= 4097; length++) {
        char *name = malloc(length);
        memset(name, 'a', length);
        mimelook_report report = ask(SAMPLE, sizeof SAMPLE, name, length, ROOM);
        CHECK(length == 4096 ? ANSWERS(0) : report.status == MIMELOOK_NAME_TOO_LONG && are_left());
        CHECK(length == 4096 || (report.nodes == 0 && report.bytes == 0));
        CHECK(length == 4096 || ask(SAMPLE, 39, name, length, ROOM).status == MIMELOOK_NAME_TOO_LONG);
        free(name);
    }
}

/* Every front of the sample, in front of a page that can't be read. */
static void cut_everywhere(void) {
    uint8_t *pages = mmap(NULL, 8192, PROT_READ | PROT_WRITE, MAP_PRIVATE | MAP_ANONYMOUS, -1, 0);
    CHECK(pages != MAP_FAILED && mprotect(pages + 4096, 4096, PROT_NONE) == 0);
    static const char *const names[] = {"mk", "A.GZ", "x"};
    bool are_told = true;
    for (size_t length = 0; length <= sizeof SAMPLE; length++) {
        const uint8_t *cache = memcpy(pages + 4096 - length, SAMPLE, length);
        for (size_t i = 0; i < 3; i++) {
            mimelook_report report = ask(cache, length, names[i], strlen(names[i]), ROOM);
            are_told &= report.status == MIMELOOK_ANSWERED ? count == (i < 2) : are_left();
            are_told &= length < 40 ? report.status == MIMELOOK_TRUNCATED
                : report.status == MIMELOOK_ANSWERED || (report.status == MIMELOOK_OUT_OF_RANGE && length < sizeof SAMPLE);
        }
    }
    CHECK(are_told);
    munmap(pages, 8192);
}

int main(void) {
    hits_of_the_sample();
    several_hits();
    several_kept();
    faults();
    nulls();
    long_names();
    cut_everywhere();
    return told();
}
