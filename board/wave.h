/*
 * A run of the board as a wave: a VCD file with a time of one for each tick, and beside
 * it what the model reported, as lines of text, by which the file can be checked.
 *
 * Of each core: its phase, by the numbers of sgdma.h; RUN, and the bits of status; the
 * line; the pointer; the bytes moved of the descriptor in hand; beats in and out and
 * records, in all. Of the firmware: each read and write, with address, value and the
 * line of its file. What a time shows is what is so at the end of its tick, the access
 * that it belongs to made; where an access takes no tick, the last of several is shown.
 * One time behind the last tick there is no access. Time does not go back: a board is
 * not restored while its wave is written.
 *
 * The lines of the reports, all numbers but addresses and values decimal:
 *
 *   step TICK CORE REASON STEPS TAKEN MADE USED
 *   read TICK ADDRESS VALUE LINE DEVICE REGISTER
 *   write TICK ADDRESS VALUE LINE DEVICE REGISTER
 */
#ifndef WAVE_H
#define WAVE_H

/* Begins to write both files, over the board that was made; the program ends where it
   cannot. */
void wave_begin(const char *wave, const char *reports);

/* Ends the wave behind the last tick, and closes both, where they are open. The end of
   the program does so too. */
void wave_end(void);

#endif
