#define _POSIX_C_SOURCE 200809L /* stat */

#include "file.h"

#include <ctype.h>
#include <inttypes.h>
#include <stdio.h>
#include <stdlib.h>
#include <sys/stat.h>

#include "sgdma.h"

void give_up(const char *what, const char *why)
{
    fprintf(stderr, "%s: %s: %s\n", program_name, what, why);
    exit(NOT_READ);
}

struct file read_file(const char *path)
{
    struct file file = {NULL, 0};
    size_t room = 0, got;
    FILE *from = fopen(path, "rb");

    if (!from)
        give_up(path, "it cannot be opened");
    do {
        room = 2 * room + 65536;
        file.bytes = realloc(file.bytes, room);
        if (!file.bytes)
            give_up(path, "it is too large");
        got = fread(file.bytes + file.length, 1, room - file.length, from);
        file.length += got;
    } while (file.length == room);
    if (ferror(from))
        give_up(path, "it cannot be read");
    fclose(from);
    return file;
}

void write_file(const char *path, struct file file)
{
    FILE *to = fopen(path, "wb");

    if (!to)
        give_up(path, "it cannot be written");
    fwrite(file.bytes, 1, file.length, to);
    if (ferror(to) || fclose(to))
        give_up(path, "it cannot be written");
}

void remove_old(const char *path)
{
    struct stat old;

    if (!stat(path, &old) && S_ISREG(old.st_mode) && remove(path))
        give_up(path, "it is from before, and cannot be removed");
}

bool is_same_file(const char *path, const char *other)
{
    struct stat one, two;

    return !stat(path, &one) && !stat(other, &two) && one.st_dev == two.st_dev &&
           one.st_ino == two.st_ino;
}

uint32_t address_in(const char *name, const char *text)
{
    bool hexadecimal = text[0] == '0' && (text[1] == 'x' || text[1] == 'X');
    char *end;
    unsigned long long address = strtoull(text, &end, hexadecimal ? 16 : 10);

    if (!isdigit((unsigned char)*text) || *end || address > UINT32_MAX) {
        fprintf(stderr, "%s: %s must be an address of the bus, decimal or with 0x: '%s'\n",
                program_name, name, text);
        exit(NOT_READ);
    }
    return (uint32_t)address;
}

void show_dump(struct dump dump, uint32_t pointer)
{
    printf("%zu bytes at 0x%04" PRIX32, dump.length, dump.base);
    if (dump.length)
        printf(" to 0x%04" PRIX64, dump.base + (uint64_t)dump.length - 1);
    printf(", the chain from 0x%04" PRIX32 "\n", pointer);
}

struct dump dump_in(const char *path, const char *base)
{
    struct file file = read_file(path);
    struct dump dump = {file.bytes, file.length, address_in("BASE", base)};

    char why[256];

    if (dump.length <= SGDMA_WINDOW_LENGTH_MAX && dump.length <= UINT32_MAX - dump.base + UINT64_C(1))
        return dump;
    snprintf(why, sizeof why,
             "SGDMA_BAD_WINDOW: it has %zu bytes at 0x%04" PRIX32 "; a window has at most 65,536 and ends "
             "at 4,294,967,296: cut out the part with the descriptors, and give its address as the base",
             dump.length, dump.base);
    give_up(path, why);
    return dump;
}
