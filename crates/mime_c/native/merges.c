/* One cache of the texts of data directories: merges, or merges DIR.. > mime.cache, which writes what `mimelook build` writes. */
#include "asked.h"
#include <stdlib.h>

static mimelook_text text_of(const char *text) {
    return (mimelook_text){bytes_of(text), text != NULL ? strlen(text) : 0};
}

/* Texts of which each is given, or NULL. */
static mimelook_directory directory(const char *globs2, const char *aliases, const char *subclasses, const char *icons) {
    mimelook_text none = {NULL, 0};
    return (mimelook_directory){text_of(globs2), none, text_of(aliases), text_of(subclasses), text_of(icons), none};
}

static uint8_t cache[1024];
static size_t length;

static mimelook_merge_report merge(const mimelook_directory *directories, size_t count, size_t room) {
    memset(cache, '?', sizeof cache);
    length = 77;
    return mimelook_merge(directories, count, cache, room, &length);
}

static bool is_left(void) {
    return cache[0] == '?' && length == 77;
}

static bool is_status(mimelook_merge_report report, uint32_t status) {
    return report.status == status && report.fault == 0 && report.directory == 0 && report.at == 0 && report.spare[0] == 0
        && report.spare[1] == 0;
}

static bool is_alias(const char *type, const char *expected) {
    mimelook_text resolved = MIMELOOK_NO_TEXT;
    return mimelook_unalias(cache, length, bytes_of(type), strlen(type), &resolved).status == MIMELOOK_ANSWERED
        && is_text(resolved, expected);
}

static bool is_type(const char *name, const char *expected) {
    mimelook_answer answer = MIMELOOK_NO_ANSWER;
    return mimelook_look_up(cache, length, bytes_of(name), strlen(name), NULL, 0, MIMELOOK_GLOBS_FIRST, &answer).status
        == MIMELOOK_ANSWERED && is_text(answer.type, expected);
}

/* The more preferred directory is the first. */
static void directories_in_order(void) {
    const mimelook_directory own = directory("50:t/o:mk\n", "t/h t/g\n", NULL, NULL);
    const mimelook_directory two[] = {own, directory("50:t/m:mk\n60:t/z:*.z\n", "t/h t/x\nt/i t/y\n", NULL, NULL)};
    CHECK(is_status(merge(two, 2, sizeof cache), MIMELOOK_ANSWERED));
    CHECK(is_alias("t/h", "t/g") && is_alias("t/i", "t/y") && is_type("a.z", "t/z"));
    CHECK(is_status(merge(two + 1, 1, sizeof cache), MIMELOOK_ANSWERED) && is_alias("t/h", "t/x") && is_type("mk", "t/m"));
}

static void texts_of_a_directory(void) {
    static const char magic[] = "MIME-Magic\0\n[40:t/g]\n>0=\0\2\x1f\x8b\n";
    mimelook_directory one = directory(NULL, NULL, "t/g t/m\n", "t/g:lens\n");
    one.generic_icons = text_of("t/g:glass\n");
    one.magic = (mimelook_text){bytes_of(magic), sizeof magic - 1};
    CHECK(is_status(merge(&one, 1, sizeof cache), MIMELOOK_ANSWERED));
    mimelook_text texts[2] = {MIMELOOK_NO_TEXT, MIMELOOK_NO_TEXT};
    size_t count = 0;
    CHECK(mimelook_parents(cache, length, bytes_of("t/g"), 3, texts, 2, &count).status == MIMELOOK_ANSWERED && count == 1);
    CHECK(is_text(texts[0], "t/m"));
    CHECK(mimelook_listed_icons(cache, length, bytes_of("t/g"), 3, texts, texts + 1).status == MIMELOOK_ANSWERED);
    CHECK(is_text(texts[0], "lens") && is_text(texts[1], "glass"));
    mimelook_sniffed sniffed = {MIMELOOK_NO_TEXT, 0, 0, {0, 0, 0}};
    CHECK(mimelook_sniff(cache, length, bytes_of("\x1f\x8b"), 2, &sniffed).status == MIMELOOK_ANSWERED);
    CHECK(is_text(sniffed.type, "t/g") && sniffed.priority == 40 && sniffed.holds == 1);
}

/* 40 bytes of the header, six counts, the two numbers of the tree, and the three of magic. */
static void no_directories(void) {
    CHECK(is_status(merge(NULL, 0, sizeof cache), MIMELOOK_ANSWERED) && length == 88 && cache[88] == '?');
    const mimelook_directory none = directory(NULL, NULL, NULL, NULL);
    CHECK(is_status(merge(&none, 1, sizeof cache), MIMELOOK_ANSWERED) && length == 88);
    CHECK(is_status(merge(NULL, 0, 88), MIMELOOK_ANSWERED) && length == 88);
    CHECK(is_status(merge(NULL, 0, 87), MIMELOOK_SHORT_BUFFER) && length == 88 && cache[0] == '?');
    CHECK(is_status(mimelook_merge(NULL, 0, NULL, 0, &length), MIMELOOK_SHORT_BUFFER) && length == 88);
}

static void magic_that_is_refused(void) {
    mimelook_directory two[] = {directory(NULL, NULL, NULL, NULL), directory(NULL, NULL, NULL, NULL)};
    two[1].magic = text_of("magic");
    mimelook_merge_report report = merge(two, 2, sizeof cache);
    CHECK(report.status == MIMELOOK_BAD_MAGIC && report.fault == MIMELOOK_MAGIC_NO_HEADER && report.directory == 1 && report.at == 0);
    CHECK(is_left() && report.spare[0] == 0 && report.spare[1] == 0);
    two[0].magic = (mimelook_text){bytes_of("MIME-Magic\0\n["), 13};
    report = merge(two, 2, sizeof cache);
    CHECK(report.status == MIMELOOK_BAD_MAGIC && report.fault == MIMELOOK_MAGIC_TRUNCATED && report.directory == 0 && report.at == 13);
    CHECK(is_left());
}

/* The bytes of a file, none where there is no such file. */
static mimelook_text read_file(const char *folder, const char *name) {
    char path[4096];
    snprintf(path, sizeof path, "%s/mime/%s", folder, name);
    FILE *file = fopen(path, "rb");
    mimelook_text text = {NULL, 0};
    if (file != NULL) {
        enum { MOST = 1 << 24 };
        uint8_t *bytes = malloc(MOST);
        text = (mimelook_text){bytes, bytes != NULL ? fread(bytes, 1, MOST, file) : 0};
        fclose(file);
    }
    return text;
}

static int write_merged(char **folders, size_t count) {
    mimelook_directory *directories = malloc(count * sizeof *directories);
    for (size_t i = 0; directories != NULL && i < count; i++) {
        directories[i] = (mimelook_directory){read_file(folders[i], "globs2"), read_file(folders[i], "magic"),
            read_file(folders[i], "aliases"), read_file(folders[i], "subclasses"), read_file(folders[i], "icons"),
            read_file(folders[i], "generic-icons")};
    }
    mimelook_merge_report report = mimelook_merge(directories, count, NULL, 0, &length);
    uint8_t *merged = malloc(length);
    report = mimelook_merge(directories, count, merged, length, &length);
    return report.status != MIMELOOK_ANSWERED || fwrite(merged, 1, length, stdout) != length;
}

int main(int count, char **words) {
    if (count > 1) {
        return write_merged(words + 1, (size_t)count - 1);
    }
    directories_in_order();
    texts_of_a_directory();
    no_directories();
    magic_that_is_refused();
    return told();
}
