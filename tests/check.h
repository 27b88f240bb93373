/*
 * Comparisons that are counted. One that fails is told; the tests go on.
 */
#ifndef CHECK_H
#define CHECK_H

#include <stddef.h>
#include <stdint.h>

/* The rows of a table. */
#define COUNT(table) (sizeof(table) / sizeof *(table))

/* Names the case that the next comparisons speak of. */
void check_case(const char *name);

void check(const char *what, uint64_t found, uint64_t wanted);
void check_bytes(const char *what, const uint8_t *found, const uint8_t *wanted,
                 size_t length);

/* Prints 'N passed, M failed'; 0 where none has failed. */
int check_figures(void);

/* The tests, one function for each file. */
void test_known_runs(void);
void test_named_runs(void);
void test_registers(void);
void test_interrupts(void);
void test_layouts(void);
void test_ledger(void);
void test_dates(void);
void test_sums(void);
void test_largest_ledger(void);
void test_finding(void);
void test_chains(void);
void test_mend(void);
void test_refusals(void);
void test_fields(void);
void test_editions(void);
void test_ahead(void);
void test_obeys(void);
void test_modes(void);
void test_controller(void);
void test_timer(void);

#endif
