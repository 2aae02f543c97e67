/* The functions of xdgmime over libmimelook, for programs that carry a copy of xdgmime.
 *
 * The data are the text files of the user's data directories, merged in memory. Every five seconds at most a call looks whether one
 * of them has another time, size or place, and then all are read anew. A file `magic` that is refused counts as empty, and so does what
 * is missing or can't be read. Where memory is refused a type is XDG_MIME_TYPE_UNKNOWN and all else is empty, until the next look.
 *
 * What a call returns stays as it is until the data are read anew, so until any later call; where it is an array, free it. One thread at
 * a time may be in a call, as with xdgmime: lock around it and copy what it returned. A name is one of a file alone, with no folder.
 *
 * With the macro XDG_PREFIX, as _gio_xdg, the functions are _gio_xdg_get_mime_type_for_data and so on, here and where xdgmime.c is
 * compiled. */
#ifndef MIMELOOK_XDGMIME_H
#define MIMELOOK_XDGMIME_H

#include <stddef.h>
#include <sys/stat.h>

#ifdef XDG_PREFIX
#define XDG_JOIN(prefix, name) prefix##_##name
#define XDG_PREFIXED(prefix, name) XDG_JOIN(prefix, name)
#define XDG_ENTRY(name) XDG_PREFIXED(XDG_PREFIX, name)
#define xdg_mime_type_unknown XDG_ENTRY(type_unknown)
#define xdg_mime_type_empty XDG_ENTRY(type_empty)
#define xdg_mime_type_textplain XDG_ENTRY(type_textplain)
#define xdg_mime_get_mime_type_for_data XDG_ENTRY(get_mime_type_for_data)
#define xdg_mime_get_mime_type_for_file XDG_ENTRY(get_mime_type_for_file)
#define xdg_mime_get_mime_type_from_file_name XDG_ENTRY(get_mime_type_from_file_name)
#define xdg_mime_get_mime_types_from_file_name XDG_ENTRY(get_mime_types_from_file_name)
#define xdg_mime_is_valid_mime_type XDG_ENTRY(is_valid_mime_type)
#define xdg_mime_mime_type_equal XDG_ENTRY(mime_type_equal)
#define xdg_mime_media_type_equal XDG_ENTRY(media_type_equal)
#define xdg_mime_mime_type_subclass XDG_ENTRY(mime_type_subclass)
#define xdg_mime_get_mime_parents XDG_ENTRY(get_mime_parents)
#define xdg_mime_list_mime_parents XDG_ENTRY(list_mime_parents)
#define xdg_mime_unalias_mime_type XDG_ENTRY(unalias_mime_type)
#define xdg_mime_get_icon XDG_ENTRY(get_icon)
#define xdg_mime_get_generic_icon XDG_ENTRY(get_generic_icon)
#define xdg_mime_get_max_buffer_extents XDG_ENTRY(get_max_buffer_extents)
#define xdg_mime_shutdown XDG_ENTRY(shutdown)
#define xdg_mime_dump XDG_ENTRY(dump)
#define xdg_mime_register_reload_callback XDG_ENTRY(register_reload_callback)
#define xdg_mime_remove_callback XDG_ENTRY(remove_callback)
#define xdg_mime_set_dirs XDG_ENTRY(set_dirs)
#endif

#ifdef __cplusplus
extern "C" {
#endif

/* application/octet-stream, application/x-zerosize and text/plain. These three are always returned as these very pointers. */
extern const char xdg_mime_type_unknown[];
extern const char xdg_mime_type_empty[];
extern const char xdg_mime_type_textplain[];
#define XDG_MIME_TYPE_UNKNOWN xdg_mime_type_unknown
#define XDG_MIME_TYPE_EMPTY xdg_mime_type_empty
#define XDG_MIME_TYPE_TEXTPLAIN xdg_mime_type_textplain

typedef void (*XdgMimeCallback)(void *user_data);
typedef void (*XdgMimeDestroy)(void *user_data);

/* The type of a content alone, and unless `priority` is NULL that of the section of magic that holds: 0 where none does, 100 for no
 * bytes. */
const char *xdg_mime_get_mime_type_for_data(const void *data, size_t length, int *priority);

/* The type of a file, by its name and, where that leaves it open, its content; NULL for NULL. `status` is what stat says of it, or
 * NULL. What is no regular file or can't be read, and has no type by its name, is XDG_MIME_TYPE_UNKNOWN. */
const char *xdg_mime_get_mime_type_for_file(const char *path, struct stat *status);

/* The type of a name alone. */
const char *xdg_mime_get_mime_type_from_file_name(const char *name);

/* The types of the rules that match a name, best first, each once and at most `room`; and how many they are. */
int xdg_mime_get_mime_types_from_file_name(const char *name, const char *types[], int room);

/* Whether a text is the name of a type. */
int xdg_mime_is_valid_mime_type(const char *type);

/* Whether two types are the same after their aliases. */
int xdg_mime_mime_type_equal(const char *type, const char *other);

/* Whether two types are the same up to their `/`. */
int xdg_mime_media_type_equal(const char *type, const char *other);

/* Whether a type is another or a subclass of it after their aliases; a base such as image/ * is each type of images. */
int xdg_mime_mime_type_subclass(const char *type, const char *base);

/* The parents of a type, and then NULL: the array is the library's, until the next call of this function or xdg_mime_shutdown. */
const char **xdg_mime_get_mime_parents(const char *type);

/* The parents of a type, and then NULL, in an array that the caller frees; NULL where memory is refused. */
char **xdg_mime_list_mime_parents(const char *type);

/* The type that a type is an alias of, else the type that was given. */
const char *xdg_mime_unalias_mime_type(const char *type);

/* The icon that is listed for a type, and the one that is listed for it and those like it; NULL where none is. */
const char *xdg_mime_get_icon(const char *type);
const char *xdg_mime_get_generic_icon(const char *type);

/* How many bytes of a content can make a difference. */
int xdg_mime_get_max_buffer_extents(void);

/* Frees what was read and runs the callbacks; the next call reads anew. */
void xdg_mime_shutdown(void);

/* Prints the files that were read and how long they and what is made of them are. */
void xdg_mime_dump(void);

/* A function that is called with `data` whenever what was read is given up; the number that removes it, or 0 where memory is refused.
 * Removing it calls `destroy`, unless that is NULL. */
int xdg_mime_register_reload_callback(XdgMimeCallback callback, void *data, XdgMimeDestroy destroy);
void xdg_mime_remove_callback(int number);

/* The folders of the text files, as /usr/share/mime, most preferred first, and then NULL; NULL for those of the environment. */
void xdg_mime_set_dirs(const char *const *folders);

#ifdef __cplusplus
}
#endif

#endif
