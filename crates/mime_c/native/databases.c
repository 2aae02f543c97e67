/* A database that is kept open: each call by a handle gives what the call over the bytes gives, over the sample and over caches that are
 * damaged, and over directories that are merged; NULL, no bytes and no room; and nothing is left once all are closed. */
#include "asked.h"
#include <stdlib.h>

enum { HITS = 3, PARENTS = 3, ROOM = 300, DAMAGED = 3000, TIMES = 10000 };

static const uint8_t before[] = "before";

/* All that a call may write, as it is before the call. */
struct written {
    mimelook_answer answer;
    mimelook_hit hits[HITS];
    size_t count;
    mimelook_sniffed sniffed;
    bool is;
    mimelook_text text, other, parents[PARENTS];
    uint8_t icon[ROOM], generic[ROOM];
    mimelook_icon_lengths lengths;
    uint64_t extent;
};

static void prepare(struct written *to) {
    memset(to, 7, sizeof *to);
    to->is = false;
    to->answer.type = to->sniffed.type = to->text = to->other = (mimelook_text){before, 6};
    for (int i = 0; i < HITS; i++) {
        to->hits[i].type = to->text;
    }
    for (int i = 0; i < PARENTS; i++) {
        to->parents[i] = to->text;
    }
}

/* What is asked of: bytes, or what is open. */
struct asked {
    const uint8_t *cache;
    size_t length;
    mimelook_database *database;
    bool is_open;
};

static const uint8_t *at(const char *text) {
    return bytes_of(text);
}

static size_t size(const char *text) {
    return text != NULL ? strlen(text) : 0;
}

static mimelook_report look_up(struct asked of, const char *name, const char *content, uint32_t order, struct written *to) {
    return of.is_open
        ? mimelook_database_look_up(of.database, at(name), size(name), at(content), size(content), order, &to->answer)
        : mimelook_look_up(of.cache, of.length, at(name), size(name), at(content), size(content), order, &to->answer);
}

static mimelook_report hits(struct asked of, const char *name, size_t room, struct written *to) {
    mimelook_hit *array = room != 0 ? to->hits : NULL;
    return of.is_open ? mimelook_database_hits(of.database, at(name), size(name), array, room, &to->count)
                      : mimelook_hits(of.cache, of.length, at(name), size(name), array, room, &to->count);
}

static mimelook_report sniff(struct asked of, const char *content, struct written *to) {
    return of.is_open ? mimelook_database_sniff(of.database, at(content), size(content), &to->sniffed)
                      : mimelook_sniff(of.cache, of.length, at(content), size(content), &to->sniffed);
}

static mimelook_report is_a(struct asked of, const char *type, const char *base, struct written *to) {
    return of.is_open ? mimelook_database_is_a(of.database, at(type), size(type), at(base), size(base), &to->is)
                      : mimelook_is_a(of.cache, of.length, at(type), size(type), at(base), size(base), &to->is);
}

static mimelook_report unalias(struct asked of, const char *type, struct written *to) {
    return of.is_open ? mimelook_database_unalias(of.database, at(type), size(type), &to->text)
                      : mimelook_unalias(of.cache, of.length, at(type), size(type), &to->text);
}

static mimelook_report parents(struct asked of, const char *type, size_t room, struct written *to) {
    mimelook_text *array = room != 0 ? to->parents : NULL;
    return of.is_open ? mimelook_database_parents(of.database, at(type), size(type), array, room, &to->count)
                      : mimelook_parents(of.cache, of.length, at(type), size(type), array, room, &to->count);
}

static mimelook_report icons(struct asked of, const char *type, size_t room, struct written *to) {
    uint8_t *icon = room != 0 ? to->icon : NULL, *generic = room != 0 ? to->generic : NULL;
    return of.is_open ? mimelook_database_icons(of.database, at(type), size(type), icon, room, generic, room, &to->lengths)
                      : mimelook_icons(of.cache, of.length, at(type), size(type), icon, room, generic, room, &to->lengths);
}

static mimelook_report listed_icons(struct asked of, const char *type, struct written *to) {
    return of.is_open ? mimelook_database_listed_icons(of.database, at(type), size(type), &to->text, &to->other)
                      : mimelook_listed_icons(of.cache, of.length, at(type), size(type), &to->text, &to->other);
}

static mimelook_report extent(struct asked of, struct written *to) {
    return of.is_open ? mimelook_database_extent(of.database, &to->extent) : mimelook_extent(of.cache, of.length, &to->extent);
}

/* Question number n: all functions, each over several names and types, missing ones too. */
enum { QUESTIONS = 35 };

static mimelook_report ask(struct asked of, int question, struct written *to) {
    static const char *const names[] = {"A.GZ", "mk", "x", "", NULL}, *const types[] = {"t/h", "t/g", "t/m", "no type", NULL};
    static const char *const contents[] = {"\x1f\x8b\x08", "hi\n", "", NULL};
    int which = question % 4;
    switch (question / 4) {
    case 0:
        return look_up(of, names[which], NULL, MIMELOOK_GLOBS_FIRST, to);
    case 1:
        return look_up(of, names[which], contents[which], (uint32_t)which, to);
    case 2:
        return hits(of, names[which], which == 3 ? 0 : HITS, to);
    case 3:
        return sniff(of, contents[which], to);
    case 4:
        return is_a(of, types[which], which == 3 ? types[4] : types[2], to);
    case 5:
        return which == 3 ? extent(of, to) : unalias(of, types[2 * which], to);
    case 6:
        return parents(of, types[which + 1], which == 2 ? 0 : PARENTS, to);
    case 7:
        return icons(of, types[which], ROOM, to);
    default:
        return which == 0 ? icons(of, types[1], 0, to) : listed_icons(of, types[which + 1], to);
    }
}

/* Whether two calls said and wrote the same, but for what they did. */
static bool alike(mimelook_report one, const struct written *first, mimelook_report other, const struct written *second) {
    one.nodes = other.nodes;
    one.bytes = other.bytes;
    return memcmp(&one, &other, sizeof one) == 0 && memcmp(first, second, sizeof *first) == 0;
}

/* A text that lies elsewhere is taken for one of the same bytes. */
static void take_for(mimelook_text *text, mimelook_text other) {
    if (text->length == other.length && memcmp(text->at, other.at, other.length) == 0) {
        text->at = other.at;
    }
}

static void take_all_for(struct written *to, const struct written *other) {
    take_for(&to->answer.type, other->answer.type);
    take_for(&to->sniffed.type, other->sniffed.type);
    take_for(&to->text, other->text);
    take_for(&to->other, other->other);
    for (int i = 0; i < HITS; i++) {
        take_for(&to->hits[i].type, other->hits[i].type);
    }
    for (int i = 0; i < PARENTS; i++) {
        take_for(&to->parents[i], other->parents[i]);
    }
}

/* Asks what is open each question as often as reading back takes, and says whether each is answered as over the bytes: by texts
 * that lie there, or by those of a copy. */
static bool answers_alike(const uint8_t *cache, size_t length, mimelook_database *database, int turns, bool is_copy) {
    struct asked bytes = {cache, length, NULL, false}, open = {NULL, 0, database, true};
    bool are_alike = true;
    for (int turn = 0; turn < turns; turn++) {
        for (int question = 0; question < QUESTIONS; question++) {
            struct written one, other;
            prepare(&one);
            prepare(&other);
            mimelook_report over_bytes = ask(bytes, question, &one), by_handle = ask(open, question, &other);
            if (is_copy) {
                take_all_for(&other, &one);
            }
            are_alike &= alike(over_bytes, &one, by_handle, &other);
        }
    }
    return are_alike;
}

/* Opens bytes, and says whether that, or all that is asked of them then, is as over the bytes. */
static bool opens_alike(const uint8_t *cache, size_t length, int turns) {
    mimelook_database *database = (mimelook_database *)(uintptr_t)7;
    mimelook_report checked = mimelook_check(cache, length), opened = mimelook_open(cache, length, &database);
    if (memcmp(&checked, &opened, sizeof checked) != 0 || (opened.status == MIMELOOK_ANSWERED) != (database != NULL)) {
        return false;
    }
    bool are_alike = database == NULL || answers_alike(cache, length, database, turns, false);
    mimelook_close(database);
    return are_alike;
}

static void sound_caches(void) {
    CHECK(opens_alike(SAMPLE, sizeof SAMPLE, 200));
    CHECK(opens_alike(SELF_CHILD, sizeof SELF_CHILD, 200));
    CHECK(opens_alike(NULL, 0, 1));
    for (size_t length = 0; length < sizeof SAMPLE; length++) {
        CHECK(opens_alike(SAMPLE, length, 3));
    }
}

/* The sample with one to four bytes that are others, and the same ones each time. */
static void damaged_caches(void) {
    bool are_alike = true;
    uint32_t dice = 20;
    for (int i = 0; i < DAMAGED; i++) {
        uint8_t cache[sizeof SAMPLE];
        memcpy(cache, SAMPLE, sizeof SAMPLE);
        for (int changes = 1 + i % 4; changes > 0; changes--) {
            dice = dice * 1664525 + 1013904223;
            cache[(dice >> 8) % sizeof SAMPLE] = (uint8_t)(dice >> 24);
        }
        are_alike &= opens_alike(cache, sizeof cache, i % 10 == 0 ? 30 : 2);
    }
    CHECK(are_alike);
}

/* NULL is no database: each call says so, and leaves what it was given. */
static void not_open(void) {
    struct asked nothing = {NULL, 0, NULL, true};
    struct written left, to;
    prepare(&left);
    for (int question = 0; question < QUESTIONS; question++) {
        prepare(&to);
        mimelook_report report = ask(nothing, question, &to), said = {.status = MIMELOOK_NOT_OPEN};
        CHECK(memcmp(&report, &said, sizeof said) == 0 && memcmp(&to, &left, sizeof left) == 0);
    }
    mimelook_close(NULL);
}

static mimelook_text text_of(const char *text) {
    return (mimelook_text){bytes_of(text), strlen(text)};
}

/* Two directories, with all six files between them. */
static void make_directories(mimelook_directory *two) {
    static const char magic[] = "MIME-Magic\0\n[40:t/g]\n>0=\0\2\x1f\x8b\n";
    mimelook_text none = {NULL, 0}, section = {bytes_of(magic), sizeof magic - 1};
    two[0] = (mimelook_directory){text_of("50:t/o:mk\n60:t/h:*.gz\n60:t/m:*.gz\n"), section, text_of("t/h t/g\n"), none, none, none};
    two[1] = (mimelook_directory){text_of("50:t/m:mk\n"), none, none, text_of("t/g t/m\nt/m t/k\n"), text_of("t/g:lens\n"),
        text_of("t/g:glass\nt/m:cup\n")};
}

/* What is opened over directories answers as what is merged of them does. */
static bool directories_alike(const mimelook_directory *directories, size_t count, int turns) {
    static uint8_t cache[2048];
    size_t length = 0;
    mimelook_database *database = (mimelook_database *)(uintptr_t)7;
    mimelook_merge_report merged = mimelook_merge(directories, count, cache, sizeof cache, &length);
    mimelook_merge_report opened = mimelook_open_directories(directories, count, &database);
    if (memcmp(&merged, &opened, sizeof merged) != 0 || (opened.status == MIMELOOK_ANSWERED) != (database != NULL)) {
        return false;
    }
    bool are_alike = database == NULL || answers_alike(cache, length, database, turns, true);
    mimelook_close(database);
    return are_alike;
}

static void over_directories(void) {
    mimelook_directory two[2];
    make_directories(two);
    CHECK(directories_alike(two, 2, 300) && directories_alike(two, 1, 300) && directories_alike(two + 1, 1, 300));
    CHECK(directories_alike(NULL, 0, 1));
    two[1].magic = text_of("MIME-Magic");
    CHECK(directories_alike(two, 2, 1) && directories_alike(two, 1, 1));
    two[0].magic.length -= 2;
    CHECK(directories_alike(two, 2, 1));
}

/* No directories are a database of nothing; a magic that is refused is told, and then there is no database. */
static void none_and_refused(void) {
    mimelook_directory two[2];
    mimelook_database *database = (mimelook_database *)(uintptr_t)7;
    struct written to;
    prepare(&to);
    CHECK(mimelook_open_directories(NULL, 0, &database).status == MIMELOOK_ANSWERED && database != NULL);
    struct asked open = {NULL, 0, database, true};
    CHECK(look_up(open, "mk", NULL, MIMELOOK_GLOBS_FIRST, &to).status == MIMELOOK_ANSWERED);
    CHECK(is_text(to.answer.type, "application/octet-stream"));
    mimelook_close(database);
    make_directories(two);
    two[1].magic = (mimelook_text){bytes_of("MIME-Magic\0\n["), 13};
    mimelook_merge_report report = mimelook_open_directories(two, 2, &database);
    CHECK(report.status == MIMELOOK_BAD_MAGIC && report.fault == MIMELOOK_MAGIC_TRUNCATED && report.directory == 1 && report.at == 13);
    CHECK(report.spare[0] == 0 && report.spare[1] == 0 && database == NULL);
}

/* Texts of what is opened over directories have a zero byte after them, and the directories' own bytes are not needed. */
static void texts_of_directories(void) {
    char globs2[] = "50:t/o:mk\n", aliases[] = "t/h t/g\n";
    mimelook_text none = {NULL, 0};
    mimelook_directory one = {text_of(globs2), none, text_of(aliases), none, none, none};
    mimelook_database *database;
    struct written to;
    prepare(&to);
    CHECK(mimelook_open_directories(&one, 1, &database).status == MIMELOOK_ANSWERED);
    memset(globs2, 0, sizeof globs2);
    memset(aliases, 0, sizeof aliases);
    struct asked open = {NULL, 0, database, true};
    CHECK(look_up(open, "mk", NULL, MIMELOOK_GLOBS_FIRST, &to).status == MIMELOOK_ANSWERED);
    CHECK(unalias(open, "t/h", &to).status == MIMELOOK_ANSWERED);
    CHECK(strcmp((const char *)to.answer.type.at, "t/o") == 0 && strcmp((const char *)to.text.at, "t/g") == 0);
    mimelook_close(database);
}

/* What an answer's text points to stays when the database is closed. */
static void texts_stay(void) {
    mimelook_database *database;
    struct written to;
    prepare(&to);
    CHECK(mimelook_open(SAMPLE, sizeof SAMPLE, &database).status == MIMELOOK_ANSWERED);
    CHECK(mimelook_database_unalias(database, bytes_of("t/h"), 3, &to.text).status == MIMELOOK_ANSWERED);
    CHECK(mimelook_database_sniff(database, bytes_of("hi\n"), 3, &to.sniffed).status == MIMELOOK_ANSWERED);
    mimelook_close(database);
    CHECK(is_text(to.text, "t/g") && to.text.at == SAMPLE + T_G && is_text(to.sniffed.type, "text/plain"));
}

/* What is asked of a database until a part of it is read back. */
typedef mimelook_report question(mimelook_database *database);

static mimelook_report ask_name(mimelook_database *database) {
    mimelook_answer answer = MIMELOOK_NO_ANSWER;
    return mimelook_database_look_up(database, bytes_of("A.GZ"), 4, NULL, 0, MIMELOOK_GLOBS_FIRST, &answer);
}

static mimelook_report ask_hits(mimelook_database *database) {
    mimelook_hit all[HITS];
    size_t count;
    return mimelook_database_hits(database, bytes_of("A.GZ"), 4, all, HITS, &count);
}

static mimelook_report ask_content(mimelook_database *database) {
    mimelook_sniffed sniffed = {MIMELOOK_NO_TEXT, 0, 0, {0, 0, 0}};
    return mimelook_database_sniff(database, bytes_of("\x1f\x8b\x08"), 3, &sniffed);
}

static mimelook_report ask_types(mimelook_database *database) {
    bool is;
    return mimelook_database_is_a(database, bytes_of("t/h"), 3, bytes_of("t/m"), 3, &is);
}

static mimelook_report ask_icons(mimelook_database *database) {
    uint8_t icon[ROOM], generic[ROOM];
    mimelook_icon_lengths lengths;
    return mimelook_database_icons(database, bytes_of("t/h"), 3, icon, ROOM, generic, ROOM, &lengths);
}

/* Answers visit what they visit over the bytes until they have paid the price, and less after that. */
static void reads_back(question *ask, uint64_t price) {
    mimelook_database *database;
    CHECK(mimelook_open(SAMPLE, sizeof SAMPLE, &database).status == MIMELOOK_ANSWERED);
    uint64_t first = ask(database).nodes, paid = first;
    bool are_alike = true;
    for (; paid < price; paid += first) {
        are_alike &= ask(database).nodes == first;
    }
    CHECK(are_alike && first > 1 && ask(database).nodes < first && ask(database).nodes < first);
    mimelook_close(database);
}

/* A type that several rules give a name, by what a content is. */
static const struct {
    const char *content, *type;
} CHOICES[] = {{NULL, "t/a"}, {"D", "t/c"}, {"E", "t/b"}, {"F", "t/a"}, {"", "t/a"}};

static bool chooses(struct asked of, size_t row, uint64_t *nodes) {
    struct written to;
    prepare(&to);
    mimelook_report report = look_up(of, "q.x", CHOICES[row].content, MIMELOOK_GLOBS_FIRST, &to);
    *nodes = report.nodes;
    return report.status == MIMELOOK_ANSWERED && is_text(to.answer.type, CHOICES[row].type);
}

/* A name of several types: its type is that over the bytes, also once all that was paid for is read back, and then less is visited. */
static void several_types(void) {
    static const char magic[] = "MIME-Magic\0\n[50:t/d]\n>0=\0\1D\n[50:t/e]\n>0=\0\1E\n[50:t/f]\n>0=\0\1F\n";
    mimelook_directory texts = {.globs2 = {bytes_of("50:t/a:*.x\n50:t/b:*.x\n50:x/c:*.x\n"), 33},
                                .magic = {bytes_of(magic), sizeof magic - 1},
                                .aliases = {bytes_of("x/c t/c\n"), 8},
                                .subclasses = {bytes_of("t/b t/e\nt/c t/d\nt/c t/e\n"), 24}};
    uint8_t cache[1024];
    size_t length = 0;
    mimelook_database *database;
    CHECK(mimelook_merge(&texts, 1, cache, sizeof cache, &length).status == MIMELOOK_ANSWERED);
    CHECK(mimelook_open(cache, length, &database).status == MIMELOOK_ANSWERED);
    struct asked bytes = {cache, length, NULL, false}, open = {NULL, 0, database, true};
    bool are_chosen = true, is_less = true;
    for (int turn = 0; turn < 200; turn++) {
        for (size_t row = 0; row < sizeof CHOICES / sizeof *CHOICES; row++) {
            uint64_t walked, visited;
            are_chosen &= chooses(bytes, row, &walked) && chooses(open, row, &visited);
            is_less &= turn < 199 || visited < walked;
        }
        struct written to;
        are_chosen &= is_a(open, "x/c", "t/e", &to).status == MIMELOOK_ANSWERED && to.is;
    }
    CHECK(are_chosen);
    CHECK(is_less);
    mimelook_close(database);
}

static void many_times(void) {
    bool are_open = true;
    for (int i = 0; i < TIMES; i++) {
        mimelook_database *database;
        struct written to;
        are_open &= mimelook_open(SAMPLE, sizeof SAMPLE, &database).status == MIMELOOK_ANSWERED;
        struct asked open = {NULL, 0, database, true};
        for (int turn = i % 100; turn >= 0; turn -= 30) {
            are_open &= look_up(open, "x", "\x1f\x8b\x08", MIMELOOK_GLOBS_FIRST, &to).status == MIMELOOK_ANSWERED;
        }
        mimelook_close(database);
    }
    CHECK(are_open);
}

static void directories_many_times(void) {
    mimelook_directory two[2];
    make_directories(two);
    bool are_open = true;
    for (int i = 0; i < TIMES; i++) {
        mimelook_database *database;
        are_open &= mimelook_open_directories(two, 2, &database).status == MIMELOOK_ANSWERED;
        for (int turn = i % 100; turn >= 0; turn -= 30) {
            are_open &= ask_name(database).status == MIMELOOK_ANSWERED;
        }
        mimelook_close(database);
    }
    CHECK(are_open);
}

int main(void) {
    sound_caches();
    damaged_caches();
    not_open();
    over_directories();
    none_and_refused();
    texts_of_directories();
    texts_stay();
    reads_back(ask_name, 5 + sizeof SAMPLE / 4 + sizeof SAMPLE / 8);
    reads_back(ask_hits, 5 + sizeof SAMPLE / 4 + sizeof SAMPLE / 8);
    reads_back(ask_content, 2 + sizeof SAMPLE / 8);
    reads_back(ask_types, 3 + sizeof SAMPLE / 2 + sizeof SAMPLE / 8);
    reads_back(ask_icons, 4 + 3 * (sizeof SAMPLE / 8));
    several_types();
    many_times();
    directories_many_times();
    return told();
}
