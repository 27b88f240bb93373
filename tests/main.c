/*
 * The C calls, and the constants of their header against what the calls do.
 */
#include "check.h"

int main(void)
{
    test_known_runs();
    test_named_runs();
    test_registers();
    test_interrupts();
    test_layouts();
    test_ledger();
    test_dates();
    test_sums();
    test_largest_ledger();
    test_finding();
    test_chains();
    test_mend();
    test_refusals();
    test_fields();
    test_editions();
    test_ahead();
    test_obeys();
    test_modes();
    test_controller();
    test_timer();
    return check_figures();
}
