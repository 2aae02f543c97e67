/* What each function answers over a folder of text files: test SHARE FILES SCRATCH, which are examples/share, examples/files and a
 * folder to write in. The clock and the allocations are those of this file. The last line is 'N passed, M failed'. */
#define _POSIX_C_SOURCE 200809L
#include "xdgmime.h"
#include <stdbool.h>
#include <stdio.h>
#include <stdlib.h>
#include <string.h>
#include <sys/stat.h>
#include <time.h>
#include <unistd.h>

static int passed, failed;
static time_t later;
static long allocations, refused = -1;
static char path[4096];

int __real_clock_gettime(clockid_t clock, struct timespec *now);
void *__real_malloc(size_t size);
void *__real_calloc(size_t count, size_t size);
void *__real_realloc(void *block, size_t size);

int __wrap_clock_gettime(clockid_t clock, struct timespec *now) {
    int told = __real_clock_gettime(clock, now);
    now->tv_sec += later;
    return told;
}

static bool is_refused(void) {
    return ++allocations == refused;
}

void *__wrap_malloc(size_t size) {
    return is_refused() ? NULL : __real_malloc(size);
}

void *__wrap_calloc(size_t count, size_t size) {
    return is_refused() ? NULL : __real_calloc(count, size);
}

void *__wrap_realloc(void *block, size_t size) {
    return is_refused() ? NULL : __real_realloc(block, size);
}

static void check(bool holds, const char *what, int line) {
    passed += holds;
    failed += !holds;
    if (!holds) {
        printf("line %d: %s: FAILED\n", line, what);
    }
}

#define CHECK(what) check((what), #what, __LINE__)

static bool is(const char *text, const char *expected) {
    return text != NULL && strcmp(text, expected) == 0;
}

/* A path in a folder, until the next call. */
static const char *in(const char *folder, const char *name) {
    snprintf(path, sizeof path, "%s/%s", folder, name);
    return path;
}

static void write_file(const char *folder, const char *name, const char *text) {
    FILE *file = fopen(in(folder, name), "wb");
    if (file == NULL || fputs(text, file) < 0 || fclose(file) != 0) {
        exit(2);
    }
}

static void use_folder(const char *folder) {
    const char *const folders[] = {folder, NULL};
    xdg_mime_set_dirs(folders);
}

static const struct {
    const char *name, *type;
} NAMES[] = {
    {"notes.txt", "text/plain"},
    {"NOTES.TXT", "text/plain"},
    {"a.tar.gz", "application/x-compressed-tar"},
    {"a.c", "text/x-csrc"},
    {"a.C", "text/x-c++src"},
    {"GNUmakefile", "text/x-makefile"},
    {"gnumakefile", "application/octet-stream"},
    {"README.html", "text/html"},
    {"README", "text/x-readme"},
    {"x", "application/octet-stream"},
    {"", "application/octet-stream"},
    {"\xff\xfe.pdf", "application/pdf"},
};

static void by_name(void) {
    for (size_t i = 0; i < sizeof NAMES / sizeof *NAMES; i++) {
        check(is(xdg_mime_get_mime_type_from_file_name(NAMES[i].name), NAMES[i].type), NAMES[i].name, __LINE__);
    }
    static char name[4098];
    memset(name, 'a', sizeof name - 1);
    CHECK(xdg_mime_get_mime_type_from_file_name(name) == XDG_MIME_TYPE_UNKNOWN);
    CHECK(xdg_mime_get_mime_type_from_file_name("a.txt") == XDG_MIME_TYPE_TEXTPLAIN);
}

static void several_by_name(void) {
    const char *types[3] = {NULL, NULL, NULL};
    CHECK(xdg_mime_get_mime_types_from_file_name("a.py", types, 3) == 1 && is(types[0], "text/x-python3"));
    CHECK(xdg_mime_get_mime_types_from_file_name("x", types, 3) == 0);
    CHECK(xdg_mime_get_mime_types_from_file_name("a.py", types, 0) == 0);
    CHECK(xdg_mime_get_mime_types_from_file_name("a.ogg", types, 3) == 2 && is(types[0], "audio/ogg") && is(types[1], "video/ogg"));
    CHECK(xdg_mime_get_mime_types_from_file_name("a.ogg", types, 1) == 1 && is(types[0], "audio/ogg"));
    CHECK(xdg_mime_get_mime_types_from_file_name("README.html", types, 3) == 2 && is(types[1], "text/x-readme"));
    /* two globs of one type */
    CHECK(xdg_mime_get_mime_types_from_file_name("a.jpg", types, 3) == 1 && is(types[0], "image/jpeg"));
}

static void by_content(void) {
    int priority = -1;
    CHECK(is(xdg_mime_get_mime_type_for_data("%PDF-1.4", 8, &priority), "application/pdf") && priority == 50);
    CHECK(is(xdg_mime_get_mime_type_for_data("PK\3\4", 4, &priority), "application/zip") && priority == 40);
    CHECK(xdg_mime_get_mime_type_for_data("hello", 5, &priority) == XDG_MIME_TYPE_TEXTPLAIN && priority == 0);
    CHECK(xdg_mime_get_mime_type_for_data("\0\1", 2, &priority) == XDG_MIME_TYPE_UNKNOWN && priority == 0);
    CHECK(xdg_mime_get_mime_type_for_data("", 0, &priority) == XDG_MIME_TYPE_EMPTY && priority == 100);
    CHECK(xdg_mime_get_mime_type_for_data(NULL, 0, NULL) == XDG_MIME_TYPE_EMPTY);
    CHECK(xdg_mime_get_max_buffer_extents() == 1029);
}

static void by_file(const char *files, const char *scratch) {
    struct stat status;
    CHECK(is(xdg_mime_get_mime_type_for_file(in(files, "notes"), NULL), "text/plain"));
    CHECK(is(xdg_mime_get_mime_type_for_file(in(files, "nothing"), NULL), "application/x-zerosize"));
    CHECK(is(xdg_mime_get_mime_type_for_file(in(files, "picture"), NULL), "image/png"));
    CHECK(is(xdg_mime_get_mime_type_for_file(in(files, "report"), NULL), "application/pdf"));
    CHECK(is(xdg_mime_get_mime_type_for_file(in(files, "script"), NULL), "text/x-python3"));
    CHECK(is(xdg_mime_get_mime_type_for_file(in(files, "song.ogg"), NULL), "audio/ogg"));
    CHECK(stat(in(files, "report"), &status) == 0 && is(xdg_mime_get_mime_type_for_file(path, &status), "application/pdf"));
    CHECK(is(xdg_mime_get_mime_type_for_file("/nowhere/a.md", NULL), "text/markdown"));
    CHECK(xdg_mime_get_mime_type_for_file("/nowhere/a", NULL) == XDG_MIME_TYPE_UNKNOWN);
    CHECK(xdg_mime_get_mime_type_for_file(files, NULL) == XDG_MIME_TYPE_UNKNOWN);
    CHECK(xdg_mime_get_mime_type_for_file(NULL, NULL) == NULL);
    CHECK(mkfifo(in(scratch, "pipe"), 0600) == 0 && xdg_mime_get_mime_type_for_file(path, NULL) == XDG_MIME_TYPE_UNKNOWN);
}

static void between_types(void) {
    CHECK(is(xdg_mime_unalias_mime_type("text/x-markdown"), "text/markdown"));
    CHECK(is(xdg_mime_unalias_mime_type("text/html"), "text/html") && is(xdg_mime_unalias_mime_type(""), ""));
    CHECK(xdg_mime_mime_type_equal("application/x-pdf", "application/pdf"));
    CHECK(!xdg_mime_mime_type_equal("application/pdf", "application/zip"));
    CHECK(xdg_mime_media_type_equal("image/png", "image/jpeg") && !xdg_mime_media_type_equal("image/png", "imagine/png"));
    CHECK(!xdg_mime_media_type_equal("image", "image"));
    CHECK(xdg_mime_mime_type_subclass("text/x-markdown", "text/plain"));
    CHECK(xdg_mime_mime_type_subclass("audio/ogg", "application/ogg") && !xdg_mime_mime_type_subclass("application/ogg", "audio/ogg"));
    CHECK(xdg_mime_mime_type_subclass("image/png", "image/*") && !xdg_mime_mime_type_subclass("image/png", "audio/*"));
    CHECK(xdg_mime_mime_type_subclass("anything", "application/octet-stream"));
    CHECK(xdg_mime_mime_type_subclass("anything", "anything") && !xdg_mime_mime_type_subclass("anything", "text/plain"));
    CHECK(!xdg_mime_mime_type_subclass("inode/directory", "application/octet-stream"));
    CHECK(xdg_mime_is_valid_mime_type("text/plain") && !xdg_mime_is_valid_mime_type("text"));
}

static void parents_and_icons(void) {
    char **parents = xdg_mime_list_mime_parents("text/x-markdown");
    CHECK(parents != NULL && is(parents[0], "text/plain") && parents[1] == NULL);
    free(parents);
    parents = xdg_mime_list_mime_parents("text/html");
    CHECK(parents != NULL && parents[0] == NULL);
    free(parents);
    CHECK(is(xdg_mime_get_mime_parents("audio/ogg")[0], "application/ogg"));
    CHECK(is(xdg_mime_get_mime_parents("image/svg+xml")[0], "application/xml"));
    CHECK(is(xdg_mime_get_icon("application/x-core"), "application-x-core-dump") && xdg_mime_get_icon("text/html") == NULL);
    CHECK(is(xdg_mime_get_generic_icon("application/pdf"), "x-office-document") && xdg_mime_get_generic_icon("text/html") == NULL);
}

static void count_call(void *count) {
    ++*(int *)count;
}

static void text_files_change(const char *scratch) {
    int calls = 0, ends = 0;
    static int numbers[2];
    write_file(scratch, "globs2", "50:t/one:*.q\n");
    use_folder(scratch);
    CHECK(is(xdg_mime_get_mime_type_from_file_name("a.q"), "t/one"));
    numbers[0] = xdg_mime_register_reload_callback(count_call, &calls, NULL);
    numbers[1] = xdg_mime_register_reload_callback(count_call, &calls, count_call);
    CHECK(numbers[0] > 0 && numbers[1] > 0 && numbers[0] != numbers[1]);
    write_file(scratch, "globs2", "50:t/other:*.q\n");
    CHECK(is(xdg_mime_get_mime_type_from_file_name("a.q"), "t/one") && calls == 0);
    later += 5;
    CHECK(is(xdg_mime_get_mime_type_from_file_name("a.q"), "t/other") && calls == 2);
    later += 5;
    CHECK(is(xdg_mime_get_mime_type_from_file_name("a.q"), "t/other") && calls == 2);
    write_file(scratch, "aliases", "t/alias t/other\n");
    later += 5;
    CHECK(is(xdg_mime_unalias_mime_type("t/alias"), "t/other") && calls == 4);
    xdg_mime_remove_callback(numbers[1]);
    xdg_mime_remove_callback(numbers[1]);
    CHECK(calls == 5);
    CHECK(unlink(in(scratch, "globs2")) == 0 && unlink(in(scratch, "aliases")) == 0);
    later += 5;
    CHECK(xdg_mime_get_mime_type_from_file_name("a.q") == XDG_MIME_TYPE_UNKNOWN && calls == 6);
    xdg_mime_remove_callback(numbers[0]);
    CHECK(calls == 6 && ends == 0);
}

static int own_number;

static void remove_itself(void *count) {
    ++*(int *)count;
    xdg_mime_remove_callback(own_number);
}

static void a_callback_removes_itself(void) {
    int calls = 0;
    own_number = xdg_mime_register_reload_callback(remove_itself, &calls, NULL);
    int other = xdg_mime_register_reload_callback(count_call, &calls, NULL);
    xdg_mime_shutdown();
    xdg_mime_shutdown();
    CHECK(calls == 3);
    xdg_mime_remove_callback(other);
}

static void a_magic_is_refused(const char *share, const char *scratch) {
    char folder[4096];
    snprintf(folder, sizeof folder, "%s/mime", share);
    write_file(scratch, "globs2", "50:t/one:*.q\n");
    write_file(scratch, "magic", "no magic");
    const char *const folders[] = {scratch, folder, NULL};
    xdg_mime_set_dirs(folders);
    CHECK(is(xdg_mime_get_mime_type_from_file_name("a.q"), "t/one"));
    CHECK(is(xdg_mime_get_mime_type_for_data("%PDF-1.4", 8, NULL), "application/pdf"));
    CHECK(unlink(in(scratch, "globs2")) == 0 && unlink(in(scratch, "magic")) == 0);
}

static void by_environment(const char *share, const char *scratch) {
    setenv("XDG_DATA_HOME", "", 1);
    setenv("HOME", scratch, 1);
    setenv("XDG_DATA_DIRS", share, 1);
    mkdir(in(scratch, ".local"), 0700);
    mkdir(in(scratch, ".local/share"), 0700);
    mkdir(in(scratch, ".local/share/mime"), 0700);
    write_file(scratch, ".local/share/mime/globs2", "60:t/own:*.md\n");
    xdg_mime_set_dirs(NULL);
    CHECK(is(xdg_mime_get_mime_type_from_file_name("a.md"), "t/own"));
    CHECK(is(xdg_mime_get_mime_type_from_file_name("a.txt"), "text/plain"));
    setenv("XDG_DATA_HOME", "relative", 1);
    xdg_mime_set_dirs(NULL);
    CHECK(is(xdg_mime_get_mime_type_from_file_name("a.md"), "text/markdown"));
    setenv("XDG_DATA_DIRS", "relative:/nowhere", 1);
    xdg_mime_set_dirs(NULL);
    CHECK(xdg_mime_get_mime_type_from_file_name("a.md") == XDG_MIME_TYPE_UNKNOWN);
}

/* Calls that allocate, and whether each answers what it should or that memory is refused. */
static bool is_right_or_unknown(const char *files) {
    const char *type = xdg_mime_get_mime_type_for_file(in(files, "report"), NULL);
    bool is_right = is(type, "application/pdf") || type == XDG_MIME_TYPE_UNKNOWN;
    char **parents = xdg_mime_list_mime_parents("audio/ogg");
    is_right &= parents == NULL || parents[0] == NULL || is(parents[0], "application/ogg");
    free(parents);
    const char *icon = xdg_mime_get_icon("application/x-core");
    is_right &= icon == NULL || is(icon, "application-x-core-dump");
    const char *types[2];
    int listed = xdg_mime_get_mime_types_from_file_name("a.ogg", types, 2);
    is_right &= listed == 0 || (listed == 2 && is(types[0], "audio/ogg") && is(types[1], "video/ogg"));
    xdg_mime_remove_callback(xdg_mime_register_reload_callback(count_call, NULL, NULL));
    xdg_mime_mime_type_subclass("audio/ogg", "application/ogg");
    xdg_mime_get_mime_parents("audio/ogg");
    return is_right;
}

static void allocations_are_refused(const char *share, const char *files) {
    setenv("XDG_DATA_DIRS", share, 1);
    bool is_right = true;
    long last = 0;
    do {
        allocations = 0;
        refused = ++last;
        xdg_mime_set_dirs(NULL);
        is_right &= is_right_or_unknown(files);
        bool was_refused = allocations >= refused;
        refused = -1;
        later += 5;
        is_right &= is(xdg_mime_get_mime_type_from_file_name("a.pdf"), "application/pdf");
        if (!was_refused) {
            break;
        }
    } while (is_right);
    CHECK(is_right && last > 10);
}

int main(int count, char **words) {
    if (count != 4) {
        return 2;
    }
    const char *share = words[1], *files = words[2], *scratch = words[3];
    char folder[4096];
    snprintf(folder, sizeof folder, "%s/mime", share);
    use_folder(folder);
    by_name();
    several_by_name();
    by_content();
    by_file(files, scratch);
    between_types();
    parents_and_icons();
    text_files_change(scratch);
    a_callback_removes_itself();
    a_magic_is_refused(share, scratch);
    by_environment(share, scratch);
    allocations_are_refused(share, files);
    const char *const none[] = {NULL};
    xdg_mime_set_dirs(none);
    xdg_mime_shutdown();
    printf("%d passed, %d failed\n", passed, failed);
    return failed != 0;
}
