/* What a content is sniffed as, and what is said without a cache. */
#include "asked.h"

#define GZIP "\x1f\x8b\x08"

static const uint8_t before[] = "before";
static mimelook_sniffed sniffed;

static mimelook_report sniff(const uint8_t *cache, size_t length, const char *content, size_t size) {
    sniffed = (mimelook_sniffed){{before, 6}, 77, 77, {77, 77, 77}};
    return mimelook_sniff(cache, length, bytes_of(content), size, &sniffed);
}

static bool is_sniffed(const char *type, uint32_t priority, uint32_t holds) {
    return is_text(sniffed.type, type) && sniffed.priority == priority && sniffed.holds == holds && sniffed.spare[0] == 0
        && sniffed.spare[1] == 0 && sniffed.spare[2] == 0;
}

static bool is_left(void) {
    return sniffed.type.at == before && sniffed.type.length == 6 && sniffed.priority == 77 && sniffed.holds == 77
        && sniffed.spare[0] == 77 && sniffed.spare[1] == 77 && sniffed.spare[2] == 77;
}

static void contents(void) {
    mimelook_report report = sniff(SAMPLE, sizeof SAMPLE, GZIP, 3);
    CHECK(report.status == MIMELOOK_ANSWERED && report.read == 3 && is_sniffed("t/g", 40, 1));
    CHECK(sniff(SAMPLE, sizeof SAMPLE, "a" GZIP, 4).status == MIMELOOK_ANSWERED && is_sniffed("application/octet-stream", 0, 0));
    CHECK(sniff(SAMPLE, sizeof SAMPLE, "hi\n", 3).status == MIMELOOK_ANSWERED && is_sniffed("text/plain", 0, 0));
    CHECK(sniff(SAMPLE, sizeof SAMPLE, "\1", 1).status == MIMELOOK_ANSWERED && is_sniffed("application/octet-stream", 0, 0));
    CHECK(sniff(SAMPLE, sizeof SAMPLE, "", 0).status == MIMELOOK_ANSWERED && is_sniffed("application/x-zerosize", 0, 0));
    CHECK(sniff(SAMPLE, 39, GZIP, 3).status == MIMELOOK_TRUNCATED && is_left());
    report = sniff(SAMPLE, 237, GZIP, 3);
    CHECK(report.status == MIMELOOK_OUT_OF_RANGE && report.at == 236 && report.read == 3 && is_left());
    CHECK(sniff(SELF_CHILD, sizeof SELF_CHILD, "x", 1).status == MIMELOOK_SPENT && is_left());
    CHECK(mimelook_sniff(SAMPLE, sizeof SAMPLE, NULL, 0, &sniffed).status == MIMELOOK_ANSWERED);
    CHECK(is_sniffed("application/x-zerosize", 0, 0));
    CHECK(mimelook_sniff(NULL, 0, NULL, 0, &sniffed).status == MIMELOOK_TRUNCATED && is_sniffed("application/x-zerosize", 0, 0));
}

/* A section of another priority, whose type is an alias; and a front of a longer content. */
static void sections_and_fronts(void) {
    uint8_t cache[sizeof SAMPLE];
    memcpy(cache, SAMPLE, sizeof SAMPLE);
    cache[0xa3] = 90;
    cache[0xa7] = 0xe4;
    CHECK(sniff(cache, sizeof cache, GZIP, 3).status == MIMELOOK_ANSWERED && is_sniffed("t/g", 90, 1));
    char content[1000];
    memset(content, 'a', sizeof content);
    content[200] = 1;
    CHECK(sniff(SAMPLE, sizeof SAMPLE, content, sizeof content).read == 128 && is_sniffed("text/plain", 0, 0));
    cache[0x9a] = 1;
    cache[0x9b] = 44;
    CHECK(sniff(cache, sizeof cache, content, sizeof content).read == 300 && is_sniffed("text/plain", 0, 0));
}

static bool is_name(const char *text) {
    return mimelook_is_type_name(bytes_of(text), strlen(text));
}

static void names(void) {
    CHECK(is_name("text/plain") && is_name("a/b") && is_name("a/b/c") && is_name("x/\xff"));
    CHECK(!is_name("") && !is_name("text") && !is_name("/b") && !is_name("a/") && !is_name("a b/c") && !is_name("a:/b"));
    char longest[257];
    memset(longest, 'a', 256);
    memcpy(longest + 253, "/bc", 4);
    CHECK(!is_name(longest));
    longest[255] = '\0';
    CHECK(is_name(longest));
    CHECK(!mimelook_is_type_name(NULL, 0));
}

static bool is_known(uint32_t status) {
    return strcmp(mimelook_status_text(status), "unknown status") != 0;
}

static void words(void) {
    for (uint32_t status = 0; status < 100; status++) {
        CHECK(is_known(status) == (status <= MIMELOOK_NOT_OPEN));
        for (uint32_t other = 0; other < status && is_known(status); other++) {
            CHECK(strcmp(mimelook_status_text(other), mimelook_status_text(status)) != 0);
        }
    }
    CHECK(!is_known(UINT32_MAX));
    int major = -1, minor = -1, patch = -1, end = 0;
    CHECK(sscanf(mimelook_version(), "%d.%d.%d%n", &major, &minor, &patch, &end) == 3 && mimelook_version()[end] == '\0');
    CHECK(major == MIMELOOK_VERSION_MAJOR && minor == MIMELOOK_VERSION_MINOR && patch == MIMELOOK_VERSION_PATCH);
}

int main(void) {
    contents();
    sections_and_fronts();
    names();
    words();
    return told();
}
