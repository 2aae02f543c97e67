/* What a reader of caches says, for peers.c: a text to be freed. A name and a path are of one file each. */
#include <stddef.h>

#ifdef __cplusplus
extern "C" {
#endif

char *by_name(const char *name);
char *by_file(const char *path, const char *name, const unsigned char *content, size_t length);
char *by_content(const unsigned char *content, size_t length);
/* All that it has of a type but for words to be shown. */
char *of_type(const char *type);

#ifdef __cplusplus
}
#endif
