/* Which folders have the text files, when they are read, and the database that is opened over them. */
#define _POSIX_C_SOURCE 200809L
#include "database.h"
#include <fcntl.h>
#include <mimelook.h>
#include <stdio.h>
#include <stdlib.h>
#include <string.h>
#include <time.h>
#include <unistd.h>

#define SECONDS_BETWEEN_LOOKS 5
#define SYSTEM_DIRECTORIES "/usr/local/share:/usr/share"

enum { GLOBS2, MAGIC, ALIASES, SUBCLASSES, ICONS, GENERIC_ICONS, KINDS };
static const char *const NAMES[KINDS] = {"globs2", "magic", "aliases", "subclasses", "icons", "generic-icons"};

/* What differs where a file has changed: zeros where there is no regular file. */
struct stamp {
    dev_t device;
    ino_t inode;
    off_t size;
    struct timespec written;
};

/* A text file, as it was when it was read. */
struct source {
    struct stamp stamp;
    uint8_t *bytes;
    size_t length;
};

/* A folder, by its path, and its text files. */
struct folder {
    char *path;
    struct source sources[KINDS];
};

static struct folder *folders;
static size_t folder_count;
static bool are_folders_set;
static mimelook_database *database;
static bool is_read;
static time_t last_look;

static void drop_folders(void) {
    for (size_t i = 0; i < folder_count; i++) {
        free(folders[i].path);
    }
    free(folders);
    folders = NULL;
    folder_count = 0;
}

/* Adds the folder `below` a directory, whose path has so many bytes; false where memory is refused. */
static bool add_folder(const char *directory, size_t length, const char *below) {
    size_t size = length + strlen(below) + 1;
    struct folder *grown = realloc(folders, (folder_count + 1) * sizeof *folders);
    char *path = malloc(size);
    folders = grown != NULL ? grown : folders;
    if (grown == NULL || path == NULL) {
        free(path);
        return false;
    }
    memcpy(path, directory, length);
    memcpy(path + length, below, size - length);
    folders[folder_count++] = (struct folder){.path = path};
    return true;
}

static const char *variable(const char *name) {
    const char *value = getenv(name);
    return value != NULL ? value : "";
}

/* The folders that the XDG Base Directory specification names; a directory that isn't absolute is ignored. */
static bool add_environment(void) {
    const char *data = variable("XDG_DATA_HOME"), *home = variable("HOME"), *directories = variable("XDG_DATA_DIRS");
    bool are_added = true;
    if (data[0] == '/') {
        are_added &= add_folder(data, strlen(data), "/mime");
    } else if (data[0] == '\0' && home[0] == '/') {
        are_added &= add_folder(home, strlen(home), "/.local/share/mime");
    }
    if (directories[0] == '\0') {
        directories = SYSTEM_DIRECTORIES;
    }
    while (directories[0] != '\0') {
        size_t length = strcspn(directories, ":");
        if (directories[0] == '/') {
            are_added &= add_folder(directories, length, "/mime");
        }
        directories += length + (directories[length] == ':');
    }
    return are_added;
}

/* A folder that is open, or a number that no call takes. */
static int opened(const struct folder *folder) {
    return open(folder->path, O_RDONLY | O_DIRECTORY | O_CLOEXEC);
}

static void closed(int file) {
    if (file >= 0) {
        close(file);
    }
}

static struct stamp stamp_of(int folder, const char *name) {
    struct stamp stamp;
    struct stat status;
    memset(&stamp, 0, sizeof stamp);
    if (fstatat(folder, name, &status, 0) == 0 && S_ISREG(status.st_mode)) {
        stamp.device = status.st_dev;
        stamp.inode = status.st_ino;
        stamp.size = status.st_size;
        stamp.written = status.st_mtim;
    }
    return stamp;
}

static bool is_same(struct stamp stamp, struct stamp other) {
    return stamp.device == other.device && stamp.inode == other.inode && stamp.size == other.size
        && stamp.written.tv_sec == other.written.tv_sec && stamp.written.tv_nsec == other.written.tv_nsec;
}

static bool has_changed(const struct folder *folder) {
    int at = opened(folder);
    bool is_other = false;
    for (size_t kind = 0; kind < KINDS; kind++) {
        is_other |= !is_same(stamp_of(at, NAMES[kind]), folder->sources[kind].stamp);
    }
    closed(at);
    return is_other;
}

static bool have_changed(void) {
    bool is_other = false;
    for (size_t i = 0; i < folder_count; i++) {
        is_other |= has_changed(&folders[i]);
    }
    return is_other;
}

bool xdg_mime_read_front(int folder, const char *name, uint8_t *bytes, size_t *length) {
    int file = openat(folder, name, O_RDONLY | O_CLOEXEC | O_NONBLOCK);
    size_t room = *length;
    ssize_t count = file < 0 ? -1 : 1;
    *length = 0;
    while (count > 0 && *length < room) {
        count = read(file, bytes + *length, room - *length);
        *length += count > 0 ? (size_t)count : 0;
    }
    closed(file);
    return count >= 0;
}

/* Reads a text file, which is empty where it can't be read; false where memory is refused. */
static bool read_source(int folder, const char *name, struct source *source) {
    source->stamp = stamp_of(folder, name);
    source->length = (size_t)source->stamp.size;
    source->bytes = source->length != 0 ? malloc(source->length) : NULL;
    if (source->bytes == NULL || !xdg_mime_read_front(folder, name, source->bytes, &source->length)) {
        source->length = 0;
    }
    return source->bytes != NULL || source->stamp.size == 0;
}

static bool read_folder(struct folder *folder) {
    int at = opened(folder);
    bool is_held = true;
    for (size_t kind = 0; kind < KINDS; kind++) {
        is_held &= read_source(at, NAMES[kind], &folder->sources[kind]);
    }
    closed(at);
    return is_held;
}

static void free_sources(struct folder *folder) {
    for (size_t kind = 0; kind < KINDS; kind++) {
        free(folder->sources[kind].bytes);
        folder->sources[kind].bytes = NULL;
        folder->sources[kind].length = 0;
    }
}

static mimelook_directory texts_of(const struct folder *folder) {
    mimelook_text texts[KINDS];
    for (size_t kind = 0; kind < KINDS; kind++) {
        texts[kind] = (mimelook_text){folder->sources[kind].bytes, folder->sources[kind].length};
    }
    return (mimelook_directory){
        texts[GLOBS2], texts[MAGIC], texts[ALIASES], texts[SUBCLASSES], texts[ICONS], texts[GENERIC_ICONS],
    };
}

/* Opens what was read, without a magic that is refused; nothing is open where memory is refused or the data are too large. */
static void open_database(mimelook_directory *directories) {
    for (size_t i = 0; i < folder_count; i++) {
        directories[i] = texts_of(&folders[i]);
    }
    mimelook_merge_report report = mimelook_open_directories(directories, folder_count, &database);
    while (report.status == MIMELOOK_BAD_MAGIC) {
        directories[report.directory].magic.length = 0;
        report = mimelook_open_directories(directories, folder_count, &database);
    }
}

/* Reads all folders and opens them; nothing is open where memory is refused. */
static void read_folders(void) {
    mimelook_directory *directories = calloc(folder_count + 1, sizeof *directories);
    bool is_held = directories != NULL;
    for (size_t i = 0; i < folder_count; i++) {
        is_held &= read_folder(&folders[i]);
    }
    if (is_held) {
        open_database(directories);
    }
    for (size_t i = 0; i < folder_count; i++) {
        free_sources(&folders[i]);
    }
    free(directories);
}

void xdg_mime_drop_database(void) {
    mimelook_close(database);
    database = NULL;
    is_read = false;
}

static void read_all(void) {
    is_read = true;
    if (folder_count == 0 && !are_folders_set && !add_environment()) {
        drop_folders();
        return;
    }
    read_folders();
}

mimelook_database *xdg_mime_database(void) {
    struct timespec now;
    clock_gettime(CLOCK_MONOTONIC, &now);
    if (is_read && now.tv_sec - last_look >= SECONDS_BETWEEN_LOOKS) {
        last_look = now.tv_sec;
        if (database == NULL || have_changed()) {
            xdg_mime_shutdown();
        }
    }
    if (!is_read) {
        last_look = now.tv_sec;
        read_all();
    }
    return database;
}

void xdg_mime_set_dirs(const char *const *paths) {
    xdg_mime_drop_database();
    drop_folders();
    are_folders_set = paths != NULL;
    for (size_t i = 0; paths != NULL && paths[i] != NULL; i++) {
        add_folder(paths[i], strlen(paths[i]), "");
    }
}

void xdg_mime_dump(void) {
    bool is_open = xdg_mime_database() != NULL;
    for (size_t i = 0; i < folder_count; i++) {
        for (size_t kind = 0; kind < KINDS; kind++) {
            printf("%s/%s: %lld bytes\n", folders[i].path, NAMES[kind], (long long)folders[i].sources[kind].stamp.size);
        }
    }
    printf("database: %s\n", is_open ? "open" : "none");
}
