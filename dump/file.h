/*
 * What was saved: files, and the dump of a window among them. Whoever reads one that
 * is not what it must be gives up.
 */
#ifndef FILE_H
#define FILE_H

#include <stdbool.h>
#include <stddef.h>
#include <stdint.h>

/* The program's own name, which stands before what it says when it gives up. */
extern const char program_name[];

enum { NOT_READ = 2 }; /* what a program ends with that has given up */

struct file {
    uint8_t *bytes;
    size_t length;
};

/* A dump of a window, no longer than one may be; NULL where there is none. */
struct dump {
    uint8_t *bytes;
    size_t length;
    uint32_t base;
};

/* Says of a file, or of what was given, why it will not do, and ends the program. */
void give_up(const char *what, const char *why);

struct file read_file(const char *path);
void write_file(const char *path, struct file file);

/* Takes away a plain file that is there from before; what is no plain file stays. */
void remove_old(const char *path);

/* Whether two paths lead to one file, as links do. */
bool is_same_file(const char *path, const char *other);

/* The bus address that the text of this name gives, decimal or with 0x; a 0 before a
   decimal one means nothing. */
uint32_t address_in(const char *name, const char *text);

/* The dump in a file, at the bus address that BASE gives. */
struct dump dump_in(const char *path, const char *base);

/* Where the dump and its chain are taken to be: an address meant as another is seen. */
void show_dump(struct dump dump, uint32_t pointer);

#endif
