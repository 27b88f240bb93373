/*
 * What is printed of a scene: a row for each slice, a row for each descriptor
 * with the memory it stands for. All of it fits 80 columns.
 */
#ifndef SHOW_H
#define SHOW_H

#include "firmware.h"
#include "tell.h"

/* A descriptor, and the bytes where its samples land. */
struct found {
    uint32_t address;
    struct descriptor d;
    bool done;
    size_t fresh;          /* how many bytes are samples of this stream, in order */
    char map[PACKET + 1];  /* a sign for each byte */
};

/*
 * Reads the descriptor at an address, and its bytes: the first of them must be
 * sample number `first` of this stream, and so on.
 */
struct found find(const struct core *core, uint32_t address, size_t first);

void show_legend(void);

/* The title of a scene, and the line under it. */
void show_title(size_t number, const char *title, const char *see);

void show_slice_heading(void);
void show_slice(size_t number, const struct slice *slice);

void show_found_heading(void);
void show_found(const struct found *found);

/* Whether a scene is as it must be, which is told where it is not. */
bool show_verdict(bool as);

#endif
