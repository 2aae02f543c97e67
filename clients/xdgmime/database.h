/* A database of the library, open over the text files of folders. */
#ifndef MIMELOOK_DATABASE_H
#define MIMELOOK_DATABASE_H

#include "xdgmime.h"
#include <mimelook.h>
#include <stdbool.h>
#include <stdint.h>

#ifdef XDG_PREFIX
#define xdg_mime_database XDG_ENTRY(database)
#define xdg_mime_drop_database XDG_ENTRY(drop_database)
#define xdg_mime_read_front XDG_ENTRY(read_front)
#endif

/* What the text files say, as they were when they were last looked at, which is five seconds ago at most. NULL where memory is
 * refused or the data are too large, which each call answers by a status. */
mimelook_database *xdg_mime_database(void);

/* Frees it, so that the next call reads anew. */
void xdg_mime_drop_database(void);

/* The first bytes of a regular file in an open folder, as many as there is room for; false where it can't be read. */
bool xdg_mime_read_front(int folder, const char *name, uint8_t *bytes, size_t *length);

#endif
