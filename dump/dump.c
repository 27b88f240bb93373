/*
 * A chain in a dump of the memory.
 *
 *   dump check FILE BASE POINTER
 *   dump mend FILE BASE POINTER TO
 *
 * FILE is a dump of the window that begins at the bus address BASE, and the chain
 * begins at the bus address POINTER. The mended dump is written to the file TO, and
 * where none is written there is no such file; FILE, which is all that is left of a
 * crash, stays as it is. It ends with 1 where the chain is not sound and, to be mended,
 * has nothing to keep; and with 2 where it is not given what it must be.
 */
#include <inttypes.h>
#include <stdio.h>
#include <stdlib.h>
#include <string.h>

#include "file.h"
#include "tell.h"

const char program_name[] = "dump";

enum { NOT_SOUND = 1 };

/* Checks the chain, and shows what is told; what the program ends with. */
static int check_dump(struct dump dump, uint32_t pointer)
{
    struct checked checked = check_chain(dump.bytes, dump.length, dump.base, pointer);

    show_checked(&checked);
    return checked.verdict == SGDMA_CHAIN_SOUND ? 0 : NOT_SOUND;
}

/* Checks the chain, mends it, and checks it again. A mended dump from before is taken
   away first: where none is written, it would look like that of this chain. */
static int mend_dump(struct dump dump, uint32_t pointer, const char *to)
{
    struct mended mended;
    uint32_t number;

    remove_old(to);
    check_dump(dump, pointer);
    number = mend_chain(dump.bytes, dump.length, dump.base, pointer, &mended);
    if (number == SGDMA_NOTHING_TO_KEEP) {
        printf("refused: %" PRIu32 ", nothing to keep: no file is written\n", number);
        return NOT_SOUND;
    }
    must_be_done("sgdma_mend_chain", number);
    if (!mended.any) {
        printf("nothing to mend: no file is written\n");
        return 0;
    }
    show_mended(&mended);
    write_file(to, (struct file){dump.bytes, dump.length});
    printf("the mended dump is %s\n", to);
    return check_dump(dump, pointer);
}

int main(int count, char **arguments)
{
    bool checks = count == 5 && !strcmp(arguments[1], "check");
    bool mends = count == 6 && !strcmp(arguments[1], "mend");
    struct dump dump;
    uint32_t pointer;
    int ended;

    if (!checks && !mends)
        give_up("usage", "dump check FILE BASE POINTER, or dump mend FILE BASE POINTER TO");
    if (mends && is_same_file(arguments[2], arguments[5]))
        give_up(arguments[5], "it is the dump itself, which stays as it is");
    dump = dump_in(arguments[2], arguments[3]);
    pointer = address_in("POINTER", arguments[4]);
    show_dump(dump, pointer);
    ended = checks ? check_dump(dump, pointer) : mend_dump(dump, pointer, arguments[5]);
    free(dump.bytes);
    return ended;
}
