/* What the board must stop. */
#ifndef STOPS_H
#define STOPS_H

/*
 * Makes the misuse of this name, which ends the program; 1 where there is none, or where
 * the board goes on. For the name "list" it prints all names, each with what the board
 * must tell of it.
 */
int misuse(const char *name);

#endif
