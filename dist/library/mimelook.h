/* mimelook: the MIME type of a file by its name and its content, from the bytes of a mime.cache that nobody vouches for.
 *
 * Every function is total: any bytes and any lengths give a report. None keeps anything between calls, but in a database that
 * was opened (mimelook_open, mimelook_open_directories), so threads may ask the same cache at once. A pointer with length 0 may
 * be NULL; any other has to point to that many bytes that nothing writes while the call runs, and what a call writes to must
 * not overlap anything else that it is given.
 *
 * What is written through a pointer is as it was unless the report's status is MIMELOOK_ANSWERED. Memory is taken by
 * malloc and realloc and given back before the call returns, what a database keeps when it is closed. Not for signal handlers,
 * nor for the child of a fork in a process with threads.
 *
 * A file's type takes one call, or two. The first gives the name alone, with NULL for the content: it says the type, and how
 * much of a content could give another (`wanted`). Where that is 0 the type is final, and the file need not be opened. Else
 * read that much of it, or all where it has less, and give that in the second call, whose answer is that of the whole content.
 * Where the content can't be had, the first answer stands. Open regular files only, and without blocking: a pipe may never
 * be written to.
 *
 * A content alone can make a file application/x-desktop, as the specification's checking order says. A program that starts
 * launchers looks the name up alone, with NULL for the content, and starts only what mimelook_is_a says is
 * application/x-desktop by that.
 *
 * A text of a hostile cache may be any bytes but zero, of any length up to 255, none too: escape it before it is shown. Such
 * a cache may also want 4 GiB of a content: give a front of as much as you care to read, whose type is then the front's.
 *
 * A cache that is mapped must not shrink: a page past the end of its file ends the process by SIGBUS, in any reader. A cache
 * that is replaced by renaming stays as it was; where others may write to the file itself, read it into memory first.
 *
 * The code is for Linux on x86-64, for processors of level x86-64-v2 (SSE4.2 and POPCNT, since about 2009) and later. */
#ifndef MIMELOOK_H
#define MIMELOOK_H

#include <stdbool.h>
#include <stddef.h>
#include <stdint.h>

#ifdef __cplusplus
extern "C" {
#endif

/* The version of this header, which is the library's: a later one of the same major number keeps what this one declares.
 * mimelook_version says which one a program runs with. */
#define MIMELOOK_VERSION_MAJOR 1
#define MIMELOOK_VERSION_MINOR 0
#define MIMELOOK_VERSION_PATCH 0

/* How a call ended. */
enum mimelook_status {
    MIMELOOK_ANSWERED = 0,
    MIMELOOK_NAME_TOO_LONG = 1,  /* the name has more than 4,096 bytes */
    MIMELOOK_OUT_OF_MEMORY = 2,  /* an allocation was refused */
    MIMELOOK_NOT_A_TYPE = 3,     /* bytes that have to be a type's name are not one */
    MIMELOOK_SHORT_BUFFER = 4,   /* a buffer has no room for an icon's name, or for a cache */
    MIMELOOK_TRUNCATED = 5,      /* the cache ends inside its header */
    MIMELOOK_VERSION = 6,        /* the cache is of version major.minor, not 1.2 */
    MIMELOOK_TOO_LARGE = 7,      /* the cache has, or would have, more than 268,435,456 bytes */
    MIMELOOK_OUT_OF_RANGE = 8,   /* what is needed at the offset `at` does not lie in the cache */
    MIMELOOK_LONG_TEXT = 9,      /* no text ends within 256 bytes from the offset `at` on */
    MIMELOOK_SPENT = 10,         /* records of the cache lead to one another too often */
    MIMELOOK_TOO_DEEP = 11,      /* records of the cache lie too deep */
    MIMELOOK_UNKNOWN_ORDER = 12, /* the number of the checking order is of none */
    MIMELOOK_BAD_MAGIC = 13,     /* a text of magic that was to be merged is refused */
    MIMELOOK_NOT_OPEN = 14       /* NULL was given for a database that is open */
};

/* Which of the name's globs and the content's magic is asked first. */
enum mimelook_order {
    MIMELOOK_GLOBS_FIRST = 0, /* the globs, as the specification recommends; the content chooses where they don't decide */
    MIMELOOK_MAGIC_FIRST = 1, /* magic of a priority of 80 or more, then the globs */
    MIMELOOK_ALL_GLOBS = 2    /* all globs that match: the content chooses among their types, unless these are one */
};

/* What is wrong with a text of magic, and where it is said to be wrong. */
enum mimelook_magic_fault {
    MIMELOOK_MAGIC_NO_HEADER = 1,   /* it isn't empty and doesn't begin with MIME-Magic, a zero and a newline: at 0 */
    MIMELOOK_MAGIC_TRUNCATED = 2,   /* it ends inside a head or a line: at its end */
    MIMELOOK_MAGIC_BAD_SECTION = 3, /* what begins here is neither a line nor a head */
    MIMELOOK_MAGIC_BAD_NUMBER = 4,  /* a number is missing or too large */
    MIMELOOK_MAGIC_BAD_WORD = 5,    /* a word that is not 1, 2 or 4, or doesn't divide the value */
    MIMELOOK_MAGIC_BAD_INDENT = 6,  /* an indent that no line before it leads to */
    MIMELOOK_MAGIC_TOO_DEEP = 7     /* an indent of 64 */
};

/* How a call ended, and what it took. */
typedef struct mimelook_report {
    uint32_t status;   /* one of enum mimelook_status */
    uint16_t major;    /* 0 unless the status is MIMELOOK_VERSION */
    uint16_t minor;
    uint64_t at;       /* 0 unless the status has an offset: bytes from the front of the cache */
    uint64_t read;     /* bytes of the content that were read */
    uint64_t nodes;    /* records of the cache that were visited */
    uint64_t bytes;    /* bytes that were read or compared, and tests of patterns */
    uint64_t spare[3]; /* 0 */
} mimelook_report;

/* Bytes that lie in the cache that was asked, or in the library; no zero ends them. Begin with MIMELOOK_NO_TEXT, or
 * MIMELOOK_NO_ANSWER. */
typedef struct mimelook_text {
    const uint8_t *at;
    size_t length;
} mimelook_text;

#define MIMELOOK_NO_TEXT { (const uint8_t *)"", 0 }

/* A type, and how much of a content could give another. */
typedef struct mimelook_answer {
    mimelook_text type;
    uint64_t wanted;   /* bytes of a content that a lookup of this name reads at most; 0 where the type is final */
    uint64_t spare[3]; /* 0 */
} mimelook_answer;

#define MIMELOOK_NO_ANSWER { MIMELOOK_NO_TEXT, 0, { 0, 0, 0 } }

/* A glob that matches a name. */
typedef struct mimelook_hit {
    mimelook_text type;      /* as the cache has it */
    uint32_t weight;         /* 0 to 255 */
    uint16_t case_sensitive; /* 1 where the glob is case-sensitive, else 0 */
    uint16_t kept;           /* 1 where no other that matches is preferred to it, else 0 */
    uint64_t spare[2];       /* 0 */
} mimelook_hit;

/* The lengths of the names of two icons. */
typedef struct mimelook_icon_lengths {
    size_t icon;
    size_t generic;
} mimelook_icon_lengths;

/* What a content is sniffed as. */
typedef struct mimelook_sniffed {
    mimelook_text type; /* the section's type after one alias step, else one of three fixed types */
    uint32_t priority;  /* of the section, 0 where none holds */
    uint32_t holds;     /* 1 where a section of magic holds, else 0 */
    uint64_t spare[3];  /* 0 */
} mimelook_sniffed;

/* The texts of one data directory: the six files of its folder mime. A file that is missing has no bytes. */
typedef struct mimelook_directory {
    mimelook_text globs2;
    mimelook_text magic;
    mimelook_text aliases;
    mimelook_text subclasses;
    mimelook_text icons;
    mimelook_text generic_icons;
} mimelook_directory;

/* How a merging ended. */
typedef struct mimelook_merge_report {
    uint32_t status;    /* one of enum mimelook_status */
    uint32_t fault;     /* one of enum mimelook_magic_fault, 0 unless the status is MIMELOOK_BAD_MAGIC */
    uint64_t directory; /* the first directory whose magic is refused, counted from 0, else 0 */
    uint64_t at;        /* the offset of its first fault, else 0 */
    uint64_t spare[2];  /* 0 */
} mimelook_merge_report;

/* The layout that the library was built with. */
#if defined __cplusplus && __cplusplus >= 201103L
#define MIMELOOK_LAYOUT(holds) static_assert(holds, #holds)
#elif defined __STDC_VERSION__ && __STDC_VERSION__ >= 201112L
#define MIMELOOK_LAYOUT(holds) _Static_assert(holds, #holds)
#endif
#ifdef MIMELOOK_LAYOUT
MIMELOOK_LAYOUT(sizeof(bool) == 1);
MIMELOOK_LAYOUT(sizeof(mimelook_report) == 64);
MIMELOOK_LAYOUT(offsetof(mimelook_report, status) == 0);
MIMELOOK_LAYOUT(offsetof(mimelook_report, major) == 4);
MIMELOOK_LAYOUT(offsetof(mimelook_report, minor) == 6);
MIMELOOK_LAYOUT(offsetof(mimelook_report, at) == 8);
MIMELOOK_LAYOUT(offsetof(mimelook_report, read) == 16);
MIMELOOK_LAYOUT(offsetof(mimelook_report, nodes) == 24);
MIMELOOK_LAYOUT(offsetof(mimelook_report, bytes) == 32);
MIMELOOK_LAYOUT(offsetof(mimelook_report, spare) == 40);
MIMELOOK_LAYOUT(sizeof(mimelook_text) == 16);
MIMELOOK_LAYOUT(offsetof(mimelook_text, at) == 0);
MIMELOOK_LAYOUT(offsetof(mimelook_text, length) == 8);
MIMELOOK_LAYOUT(sizeof(mimelook_answer) == 48);
MIMELOOK_LAYOUT(offsetof(mimelook_answer, type) == 0);
MIMELOOK_LAYOUT(offsetof(mimelook_answer, wanted) == 16);
MIMELOOK_LAYOUT(offsetof(mimelook_answer, spare) == 24);
MIMELOOK_LAYOUT(sizeof(mimelook_hit) == 40);
MIMELOOK_LAYOUT(offsetof(mimelook_hit, type) == 0);
MIMELOOK_LAYOUT(offsetof(mimelook_hit, weight) == 16);
MIMELOOK_LAYOUT(offsetof(mimelook_hit, case_sensitive) == 20);
MIMELOOK_LAYOUT(offsetof(mimelook_hit, kept) == 22);
MIMELOOK_LAYOUT(offsetof(mimelook_hit, spare) == 24);
MIMELOOK_LAYOUT(sizeof(mimelook_icon_lengths) == 16);
MIMELOOK_LAYOUT(offsetof(mimelook_icon_lengths, icon) == 0);
MIMELOOK_LAYOUT(offsetof(mimelook_icon_lengths, generic) == 8);
MIMELOOK_LAYOUT(sizeof(mimelook_sniffed) == 48);
MIMELOOK_LAYOUT(offsetof(mimelook_sniffed, type) == 0);
MIMELOOK_LAYOUT(offsetof(mimelook_sniffed, priority) == 16);
MIMELOOK_LAYOUT(offsetof(mimelook_sniffed, holds) == 20);
MIMELOOK_LAYOUT(offsetof(mimelook_sniffed, spare) == 24);
MIMELOOK_LAYOUT(sizeof(mimelook_directory) == 96);
MIMELOOK_LAYOUT(offsetof(mimelook_directory, globs2) == 0);
MIMELOOK_LAYOUT(offsetof(mimelook_directory, magic) == 16);
MIMELOOK_LAYOUT(offsetof(mimelook_directory, aliases) == 32);
MIMELOOK_LAYOUT(offsetof(mimelook_directory, subclasses) == 48);
MIMELOOK_LAYOUT(offsetof(mimelook_directory, icons) == 64);
MIMELOOK_LAYOUT(offsetof(mimelook_directory, generic_icons) == 80);
MIMELOOK_LAYOUT(sizeof(mimelook_merge_report) == 40);
MIMELOOK_LAYOUT(offsetof(mimelook_merge_report, status) == 0);
MIMELOOK_LAYOUT(offsetof(mimelook_merge_report, fault) == 4);
MIMELOOK_LAYOUT(offsetof(mimelook_merge_report, directory) == 8);
MIMELOOK_LAYOUT(offsetof(mimelook_merge_report, at) == 16);
MIMELOOK_LAYOUT(offsetof(mimelook_merge_report, spare) == 24);
#undef MIMELOOK_LAYOUT
#endif

/* That much room is enough for each icon's name. */
#define MIMELOOK_ICON_ROOM 265

/* Whether the cache can be opened: MIMELOOK_ANSWERED, or what is wrong with its header. */
mimelook_report mimelook_check(const uint8_t *cache, size_t cache_length);

/* The type of a name (of the file alone, with no folder) and a content, and how much of a content could give another type.
 *
 * A content that is NULL is not available, whatever content_length is: then the name alone is asked, and `wanted` is 0 where
 * it gives the type, else the greater of 128 and what the cache states. Any other content is available, an empty one too, and
 * `wanted` is 0. A front of the content of `wanted` bytes gives the type of the whole. `order` is one of enum mimelook_order. */
mimelook_report mimelook_look_up(const uint8_t *cache, size_t cache_length, const uint8_t *name, size_t name_length,
    const uint8_t *content, size_t content_length, uint32_t order, mimelook_answer *answer);

/* The globs that match a name (of the file alone, with no folder), the best first, at the front of an array of that much room,
 * and how many there are. Where count is above room, the first of them are written. They are ordered by what is preferred: a
 * literal name, then an ending, then any other pattern; among these a greater weight, then a longer pattern, then a
 * case-sensitive one; and those that are alike as the cache has them. Of these the first are kept: no other is preferred to
 * them, and MIMELOOK_GLOBS_FIRST goes by them alone. Their types are not resolved: mimelook_unalias takes the alias step. */
mimelook_report mimelook_hits(const uint8_t *cache, size_t cache_length, const uint8_t *name, size_t name_length,
    mimelook_hit *hits, size_t room, size_t *count);

/* Whether a type is another or a subclass of it, aliases resolved. */
mimelook_report mimelook_is_a(const uint8_t *cache, size_t cache_length, const uint8_t *type, size_t type_length,
    const uint8_t *base, size_t base_length, bool *is);

/* The names of a type's icon and of the icon that stands for it and those like it, at the fronts of two buffers. */
mimelook_report mimelook_icons(const uint8_t *cache, size_t cache_length, const uint8_t *type, size_t type_length,
    uint8_t *icon, size_t icon_room, uint8_t *generic, size_t generic_room, mimelook_icon_lengths *lengths);

/* Calls that go by the lists of the cache for just this type, whatever its bytes are: they take no alias step before, and do
 * not ask whether it is a type's name. */

/* The type that an alias stands for, or the type itself where the cache has no such alias: bytes of the cache, or those of
 * the caller. */
mimelook_report mimelook_unalias(const uint8_t *cache, size_t cache_length, const uint8_t *type, size_t type_length,
    mimelook_text *resolved);

/* The parents that the cache lists for a type, in its order, at the front of an array of that much room, and how many there
 * are. Where count is above room, the first of them are written. That text/plain is a parent of every text type, and
 * application/octet-stream of every type of a file, is not listed: mimelook_is_a knows it. */
mimelook_report mimelook_parents(const uint8_t *cache, size_t cache_length, const uint8_t *type, size_t type_length,
    mimelook_text *parents, size_t room, size_t *count);

/* The names of the icon and of the generic icon that the cache lists for a type, of length 0 where it lists none;
 * mimelook_icons makes one up then. */
mimelook_report mimelook_listed_icons(const uint8_t *cache, size_t cache_length, const uint8_t *type, size_t type_length,
    mimelook_text *icon, mimelook_text *generic);

/* How far into a content the magic of the cache looks, in bytes, as the cache states it. */
mimelook_report mimelook_extent(const uint8_t *cache, size_t cache_length, uint64_t *extent);

/* What a content is sniffed as, whatever its name: the type and the priority of the first section of magic that holds, else
 * a type by its bytes. Of the content the greater of 128 bytes and the extent is read. */
mimelook_report mimelook_sniff(const uint8_t *cache, size_t cache_length, const uint8_t *content, size_t content_length,
    mimelook_sniffed *sniffed);

/* One cache of the texts of data directories, the most preferred first: the bytes that `mimelook build` writes, at the front of
 * a buffer of that much room, and their length. Where there is no room for them the status is MIMELOOK_SHORT_BUFFER, and the
 * length alone is written, which is the room that is needed; with any other status neither is. A malformed line is skipped.
 * Memory of several times the length of the texts may be taken. */
mimelook_merge_report mimelook_merge(const mimelook_directory *directories, size_t count, uint8_t *cache, size_t room,
    size_t *length);

/* A database that is open, for many questions.
 *
 * A program that asks one cache often opens it once. Each call by the handle gives what the call of that name over the bytes
 * gives: the same answers, statuses and structs, and leaves what it was given as it was where that does; but `nodes` and `bytes`
 * say what this call did. For NULL the status is MIMELOOK_NOT_OPEN, and nothing is written.
 *
 * The bytes of a cache that mimelook_open opens stay the caller's: nothing may write to them or let go of them until the
 * database is closed. Those of a cache that mimelook_open_directories makes are the database's, and go when it is closed. A
 * text of an answer lies in these bytes, or in the library, or is the caller's own type (mimelook_database_unalias): it is
 * there as long as these are.
 *
 * Any call may be the one that reads back a part of the cache, once those before it have visited as many records as that
 * takes: it takes longer, and memory that closing gives back.
 *
 * One call at a time serves a handle, which may go to another thread between two calls; many threads open one each over the same
 * bytes, or ask by the calls over the bytes. Nothing can check that a handle is what opening gave, that it is closed once,
 * and that it is not asked once it is closed: all three are the caller's, as they are with free. */
typedef struct mimelook_database mimelook_database;

/* Opens a cache. *database is NULL unless the status is MIMELOOK_ANSWERED; it is written whatever it was. The status is
 * MIMELOOK_OUT_OF_MEMORY, or what mimelook_check says of the cache. A cache of which only the header is sound is opened too. */
mimelook_report mimelook_open(const uint8_t *cache, size_t cache_length, mimelook_database **database);

/* Merges the texts of data directories, the most preferred first, as mimelook_merge does, and opens the cache that this makes.
 * The report is that of mimelook_merge, but never MIMELOOK_SHORT_BUFFER. *database is NULL unless its status is
 * MIMELOOK_ANSWERED; it is written whatever it was. The texts are not read once the call returns. The cache's bytes are the
 * database's: copy a text that is needed once it is closed. One that lies in them has a zero byte after it. */
mimelook_merge_report mimelook_open_directories(const mimelook_directory *directories, size_t count,
    mimelook_database **database);

/* Closes a database, and gives its memory back. Of NULL nothing is done. */
void mimelook_close(mimelook_database *database);

/* mimelook_look_up by a database that is open. */
mimelook_report mimelook_database_look_up(mimelook_database *database, const uint8_t *name, size_t name_length,
    const uint8_t *content, size_t content_length, uint32_t order, mimelook_answer *answer);

/* mimelook_hits by a database that is open. */
mimelook_report mimelook_database_hits(mimelook_database *database, const uint8_t *name, size_t name_length,
    mimelook_hit *hits, size_t room, size_t *count);

/* mimelook_is_a by a database that is open. */
mimelook_report mimelook_database_is_a(mimelook_database *database, const uint8_t *type, size_t type_length,
    const uint8_t *base, size_t base_length, bool *is);

/* mimelook_icons by a database that is open. */
mimelook_report mimelook_database_icons(mimelook_database *database, const uint8_t *type, size_t type_length,
    uint8_t *icon, size_t icon_room, uint8_t *generic, size_t generic_room, mimelook_icon_lengths *lengths);

/* mimelook_unalias by a database that is open. */
mimelook_report mimelook_database_unalias(mimelook_database *database, const uint8_t *type, size_t type_length,
    mimelook_text *resolved);

/* mimelook_parents by a database that is open. */
mimelook_report mimelook_database_parents(mimelook_database *database, const uint8_t *type, size_t type_length,
    mimelook_text *parents, size_t room, size_t *count);

/* mimelook_listed_icons by a database that is open. */
mimelook_report mimelook_database_listed_icons(mimelook_database *database, const uint8_t *type, size_t type_length,
    mimelook_text *icon, mimelook_text *generic);

/* mimelook_extent by a database that is open. */
mimelook_report mimelook_database_extent(mimelook_database *database, uint64_t *extent);

/* mimelook_sniff by a database that is open. */
mimelook_report mimelook_database_sniff(mimelook_database *database, const uint8_t *content, size_t content_length,
    mimelook_sniffed *sniffed);

/* Whether bytes are a type's name: 3 to 255 of them, each above the space and no colon, with a slash that is neither the first
 * nor the last. */
bool mimelook_is_type_name(const uint8_t *bytes, size_t length);

/* A status in a few words, "unknown status" for any other number. */
const char *mimelook_status_text(uint32_t status);

/* The version of the library, as "1.0.0". */
const char *mimelook_version(void);

#ifdef __cplusplus
}
#endif

#endif
