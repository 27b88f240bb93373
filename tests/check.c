#include "check.h"

#include <inttypes.h>
#include <stdio.h>

static const char *case_name = "";
static unsigned passed, failed;

void check_case(const char *name)
{
    case_name = name;
}

void check(const char *what, uint64_t found, uint64_t wanted)
{
    if (found == wanted) {
        passed++;
        return;
    }
    failed++;
    printf("%s: %s: 0x%" PRIX64 ", must be 0x%" PRIX64 "\n", case_name, what,
           found, wanted);
}

void check_bytes(const char *what, const uint8_t *found, const uint8_t *wanted,
                 size_t length)
{
    for (size_t i = 0; i < length; i++)
        if (found[i] != wanted[i]) {
            failed++;
            printf("%s: %s: byte %zu is 0x%02X, must be 0x%02X\n", case_name,
                   what, i, found[i], wanted[i]);
            return;
        }
    passed++;
}

int check_figures(void)
{
    printf("%u passed, %u failed\n", passed, failed);
    return failed == 0 ? 0 : 1;
}
