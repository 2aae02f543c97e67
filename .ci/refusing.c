/* Counts the allocations of a program, and refuses the one whose number, from 1, is in REFUSED. It is loaded before
   the C library. At the one whose number is in MARKED there is a breakpoint. Where COUNTED names a descriptor, the
   count is written there at the end. */
typedef unsigned long length;

extern void *__libc_malloc(length bytes);
extern void *__libc_calloc(length count, length bytes);
extern void *__libc_realloc(void *old, length bytes);
extern void *__libc_memalign(length align, length bytes);
extern char *getenv(const char *name);
extern long strtol(const char *text, char **end, int base);
extern int dprintf(int descriptor, const char *format, ...);

static long made = 0;

static long number_in(const char *name) {
    const char *text = getenv(name);
    return text ? strtol(text, 0, 10) : 0;
}

static int is_refused(void) {
    made += 1;
    if (number_in("MARKED") == made) {
        __asm__ volatile("int3");
    }
    return number_in("REFUSED") == made;
}

void *malloc(length bytes) { return is_refused() ? 0 : __libc_malloc(bytes); }

void *calloc(length count, length bytes) { return is_refused() ? 0 : __libc_calloc(count, bytes); }

void *realloc(void *old, length bytes) { return is_refused() ? 0 : __libc_realloc(old, bytes); }

void *aligned_alloc(length align, length bytes) { return is_refused() ? 0 : __libc_memalign(align, bytes); }

void *memalign(length align, length bytes) { return is_refused() ? 0 : __libc_memalign(align, bytes); }

int posix_memalign(void **to, length align, length bytes) {
    void *found = is_refused() ? 0 : __libc_memalign(align, bytes);
    if (found) {
        *to = found;
    }
    return found ? 0 : 12;
}

__attribute__((destructor)) static void tell(void) {
    long descriptor = number_in("COUNTED");
    if (descriptor) {
        dprintf((int)descriptor, "%ld\n", made);
    }
}
