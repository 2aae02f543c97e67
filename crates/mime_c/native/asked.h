/* Caches, names and counted checks for the tests. */
#ifndef ASKED_H
#define ASKED_H

#include "mimelook.h"
#include <stdio.h>
#include <string.h>

/* made by .ci/c-library: the caches of bench/damages.py */
#include "caches.h"

static int passed, failed;

static void check(bool holds, const char *what, int line) {
    passed += holds;
    failed += !holds;
    if (!holds) {
        printf("line %d: %s: FAILED\n", line, what);
    }
}

#define CHECK(what) check((what), #what, __LINE__)

static inline const uint8_t *bytes_of(const char *text) {
    return (const uint8_t *)text;
}

static inline bool is_text(mimelook_text text, const char *expected) {
    return text.length == strlen(expected) && memcmp(text.at, expected, text.length) == 0;
}

/* where the sample has its texts */
enum { T_G = 0xdc, T_M = 0xe0, T_H = 0xe4, MK = 0xe8 };

static inline void put(uint8_t *bytes, uint32_t number) {
    for (int i = 0; i < 4; i++) {
        bytes[i] = (uint8_t)(number >> (24 - 8 * i));
    }
}

/* Makes a cache of the sample with more numbers after it, to which the number at a place leads. */
static inline void lead_to(uint8_t *cache, size_t place, const uint32_t *numbers, size_t count) {
    memcpy(cache, SAMPLE, sizeof SAMPLE);
    put(cache + place, sizeof SAMPLE);
    for (size_t i = 0; i < count; i++) {
        put(cache + sizeof SAMPLE + 4 * i, numbers[i]);
    }
}

static int told(void) {
    printf("%d passed, %d failed\n", passed, failed);
    return failed != 0;
}

#endif
