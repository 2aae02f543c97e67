/* Four threads ask one cache at once, and each gets the answers that one alone gets; so do four with a handle each. */
#include "asked.h"
#include <pthread.h>

enum { THREADS = 4, TURNS = 5000 };

static bool is_type(const char *name, const char *content, const char *expected) {
    mimelook_answer answer = MIMELOOK_NO_ANSWER;
    size_t size = content != NULL ? strlen(content) : 0;
    mimelook_report report = mimelook_look_up(SAMPLE, sizeof SAMPLE, bytes_of(name), strlen(name), bytes_of(content), size,
        MIMELOOK_GLOBS_FIRST, &answer);
    return report.status == MIMELOOK_ANSWERED && is_text(answer.type, expected);
}

static void *ask(void *answered) {
    bool *are_answered = answered;
    for (int turn = 0; turn < TURNS; turn++) {
        *are_answered &= is_type("A.GZ", NULL, "t/g") && is_type("mk", "hi\n", "t/m") && is_type("x", "\x1f\x8b", "t/g")
            && is_type("x", "hi\n", "text/plain");
    }
    return NULL;
}

static bool is_type_by(mimelook_database *database, const char *name, const char *content, const char *expected) {
    mimelook_answer answer = MIMELOOK_NO_ANSWER;
    size_t size = content != NULL ? strlen(content) : 0;
    mimelook_report report = mimelook_database_look_up(database, bytes_of(name), strlen(name), bytes_of(content), size,
        MIMELOOK_GLOBS_FIRST, &answer);
    return report.status == MIMELOOK_ANSWERED && is_text(answer.type, expected);
}

static void *ask_by_handle(void *answered) {
    bool *are_answered = answered;
    mimelook_database *database;
    *are_answered &= mimelook_open(SAMPLE, sizeof SAMPLE, &database).status == MIMELOOK_ANSWERED;
    for (int turn = 0; turn < TURNS; turn++) {
        *are_answered &= is_type_by(database, "A.GZ", NULL, "t/g") && is_type_by(database, "mk", "hi\n", "t/m")
            && is_type_by(database, "x", "\x1f\x8b", "t/g") && is_type_by(database, "x", "hi\n", "text/plain");
    }
    mimelook_close(database);
    return NULL;
}

static void in_threads(void *(*run)(void *)) {
    pthread_t threads[THREADS];
    bool answered[THREADS];
    for (int i = 0; i < THREADS; i++) {
        answered[i] = true;
        CHECK(pthread_create(&threads[i], NULL, run, &answered[i]) == 0);
    }
    for (int i = 0; i < THREADS; i++) {
        CHECK(pthread_join(threads[i], NULL) == 0 && answered[i]);
    }
}

int main(void) {
    in_threads(ask);
    in_threads(ask_by_handle);
    return told();
}
