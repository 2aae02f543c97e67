/* What is said without a cache: a status in words, and the version. */
#include "mimelook.h"

const char *mimelook_status_text(uint32_t status) {
    switch ((enum mimelook_status)status) {
    case MIMELOOK_ANSWERED:
        return "answered";
    case MIMELOOK_NAME_TOO_LONG:
        return "name too long";
    case MIMELOOK_OUT_OF_MEMORY:
        return "out of memory";
    case MIMELOOK_NOT_A_TYPE:
        return "not a type";
    case MIMELOOK_SHORT_BUFFER:
        return "buffer too short";
    case MIMELOOK_TRUNCATED:
        return "cache truncated";
    case MIMELOOK_VERSION:
        return "cache of another version";
    case MIMELOOK_TOO_LARGE:
        return "cache too large";
    case MIMELOOK_OUT_OF_RANGE:
        return "cache out of range";
    case MIMELOOK_LONG_TEXT:
        return "long text in the cache";
    case MIMELOOK_SPENT:
        return "budget spent on the cache";
    case MIMELOOK_TOO_DEEP:
        return "cache too deep";
    case MIMELOOK_UNKNOWN_ORDER:
        return "unknown order";
    case MIMELOOK_BAD_MAGIC:
        return "magic refused";
    case MIMELOOK_NOT_OPEN:
        return "database not open";
    }
    return "unknown status";
}

#define SPELLED(number) #number
#define DOTTED(major, minor, patch) SPELLED(major) "." SPELLED(minor) "." SPELLED(patch)

const char *mimelook_version(void) {
    return DOTTED(MIMELOOK_VERSION_MAJOR, MIMELOOK_VERSION_MINOR, MIMELOOK_VERSION_PATCH);
}
