/* Numbers the calls of a program that reach for files, from 1, and lets the one whose number is in FAILED fail, and where
   LASTING is set all later ones of its name: with the error number in FAULT, or, where that is 0, so that one byte alone is
   read or written. It is loaded before the C library, on x86-64. Where TOLD names a descriptor, each call that the system
   was asked is told there, on a line: its name, its path or descriptor, and what it gave. */
typedef unsigned long length;

/* The calls, by their numbers in the system. */
enum { READ = 0, WRITE = 1, OPEN = 2, CLOSE = 3, FSYNC = 74, RENAME = 82, UNLINK = 87, FCHMOD = 91, STATX = 332 };

extern long syscall(long number, ...);
extern int *__errno_location(void);
extern char *getenv(const char *name);
extern long strtol(const char *text, char **end, int base);
extern int dprintf(int descriptor, const char *format, ...);

static long made = 0, failing = -1;

static long number_in(const char *name) {
    const char *text = getenv(name);
    return text ? strtol(text, 0, 10) : 0;
}

static int is_failed(long call) {
    made += 1;
    if (made == number_in("FAILED")) {
        failing = call;
        return 1;
    }
    return call == failing && number_in("LASTING");
}

static long fail(void) {
    *__errno_location() = (int)number_in("FAULT");
    return -1;
}

static long told_path(const char *name, const char *path, long gave) {
    long told = number_in("TOLD");
    if (told) {
        dprintf((int)told, "%s %s %ld\n", name, path, gave);
    }
    return gave;
}

static long told(const char *name, int descriptor, long gave) {
    long told = number_in("TOLD");
    if (told) {
        dprintf((int)told, "%s %d %ld\n", name, descriptor, gave);
    }
    return gave;
}

/* Reads or writes, where it fails with no error number one byte alone. */
static long move(const char *name, long call, int descriptor, void *bytes, length count) {
    if (is_failed(call)) {
        if (number_in("FAULT")) {
            return fail();
        }
        count = count > 1 ? 1 : count;
    }
    return told(name, descriptor, syscall(call, descriptor, bytes, count));
}

long read(int descriptor, void *bytes, length count) { return move("read", READ, descriptor, bytes, count); }

long write(int descriptor, const void *bytes, length count) {
    return move("write", WRITE, descriptor, (void *)bytes, count);
}

int open(const char *path, int how, unsigned mode) {
    return (int)(is_failed(OPEN) ? fail() : told_path("open", path, syscall(OPEN, path, how, mode)));
}

int statx(int below, const char *path, int how, unsigned mask, void *found) {
    if (is_failed(STATX)) {
        return (int)fail();
    }
    long gave = syscall(STATX, below, path, how, mask, found);
    return (int)(*path ? told_path("statx", path, gave) : told("statx", below, gave));
}

int fsync(int descriptor) { return (int)(is_failed(FSYNC) ? fail() : told("fsync", descriptor, syscall(FSYNC, descriptor))); }

int fchmod(int descriptor, unsigned mode) {
    return (int)(is_failed(FCHMOD) ? fail() : told("fchmod", descriptor, syscall(FCHMOD, descriptor, mode)));
}

int rename(const char *from, const char *to) {
    return (int)(is_failed(RENAME) ? fail() : told_path("rename", from, syscall(RENAME, from, to)));
}

int unlink(const char *path) {
    return (int)(is_failed(UNLINK) ? fail() : told_path("unlink", path, syscall(UNLINK, path)));
}

/* What is to be closed is closed, also where that fails. */
int close(int descriptor) {
    int failed = is_failed(CLOSE);
    long gave = syscall(CLOSE, descriptor);
    return (int)(failed ? fail() : told("close", descriptor, gave));
}
