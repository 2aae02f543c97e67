/* libmimelook by a database that was opened once, for in_process.c. */
#define BY_HANDLE
#include "ask_mimelook.c"
