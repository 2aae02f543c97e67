/* Databases as C opens them over directories, and closes them: the memory of their caches is freed here. */
#include "mimelook.h"
#include <stdlib.h>

/* What is proved: they hand out memory that heap.c took by malloc, and that nothing reads any more. */
mimelook_merge_report open_directories(const mimelook_directory *directories, size_t count, mimelook_database **database,
    mimelook_text *left_over);
void close_database(mimelook_database *database, mimelook_text *memory);

/* A cache has bytes, so memory without any is none. */
static void free_memory(mimelook_text memory) {
    if (memory.length != 0) {
        free((void *)memory.at);
    }
}

mimelook_merge_report mimelook_open_directories(const mimelook_directory *directories, size_t count, mimelook_database **database) {
    mimelook_text left_over = MIMELOOK_NO_TEXT;
    mimelook_merge_report report = open_directories(directories, count, database, &left_over);
    free_memory(left_over);
    return report;
}

void mimelook_close(mimelook_database *database) {
    mimelook_text memory = MIMELOOK_NO_TEXT;
    close_database(database, &memory);
    free_memory(memory);
}
