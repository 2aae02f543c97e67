/* The lookups as C calls them: a content that is NULL is not available. */
#include "mimelook.h"

/* What is proved: they take content only where has_content is true. */
mimelook_report look_up_with(const uint8_t *cache, size_t cache_length, const uint8_t *name, size_t name_length,
    const uint8_t *content, size_t content_length, bool has_content, uint32_t order, mimelook_answer *answer);
mimelook_report database_look_up_with(mimelook_database *database, const uint8_t *name, size_t name_length,
    const uint8_t *content, size_t content_length, bool has_content, uint32_t order, mimelook_answer *answer);

mimelook_report mimelook_look_up(const uint8_t *cache, size_t cache_length, const uint8_t *name, size_t name_length,
    const uint8_t *content, size_t content_length, uint32_t order, mimelook_answer *answer) {
    bool has_content = content != NULL;
    return look_up_with(cache, cache_length, name, name_length, content, has_content ? content_length : 0, has_content, order, answer);
}

mimelook_report mimelook_database_look_up(mimelook_database *database, const uint8_t *name, size_t name_length,
    const uint8_t *content, size_t content_length, uint32_t order, mimelook_answer *answer) {
    bool has_content = content != NULL;
    return database_look_up_with(database, name, name_length, content, has_content ? content_length : 0, has_content, order, answer);
}
