/*
 * Calls every function with null slices, and checks the answers: nothing may be read or written through them.
 */
#include "statement.h"

#include <stdio.h>
#include <stdlib.h>

static int failed;

static void expect(const char *call, uint64_t answer, uint64_t right)
{
    if (answer != right) {
        printf("%s: %llu, not %llu\n", call, (unsigned long long)answer, (unsigned long long)right);
        failed = 1;
    }
}

int main(void)
{
    static const uint8_t two[] = "dead, dead";
    size_t len = sizeof two - 1;
    uint64_t outcome[STATEMENT_OUTCOME_WORDS];

    expect("count of nothing", statement_count(NULL, 0, NULL, 0), 0);
    expect("fill of nothing", statement_fill(NULL, 0, NULL, 0, NULL, 0, NULL, 0), 0);
    expect("read of nothing", statement_read(NULL, 0, NULL, 0, NULL, 0), 0);
    expect("steps of nothing", statement_steps(NULL, 0, NULL, 0, NULL, 0, NULL, 0), 0);
    expect("field of nothing", statement_field(NULL, 0, 0, STATEMENT_FORM), STATEMENT_ABSENT);
    expect("part of nothing", statement_part(NULL, 0, 0, 0, NULL, 0, NULL, 0), 0);
    expect("offset of nothing", statement_offset(NULL, 0), 0);
    expect("chain count of nothing", statement_chain_count(NULL, 0, 0, NULL, 0), 0);
    expect("chain fill of nothing", statement_chain_fill(NULL, 0, 0, NULL, 0, NULL, 0, NULL, 0), 0);
    expect("chain field of nothing", statement_chain_field(NULL, 0, 0, 0, STATEMENT_FORM), STATEMENT_ABSENT);
    expect("chain offset of nothing", statement_chain_offset(NULL, 0, 0), 0);
    expect("chain text of nothing", statement_chain_text(NULL, 0, 0, NULL, 0), 0);

    expect("count of two", statement_count(two, len, NULL, 0), 2);
    expect("read of two", statement_read(two, len, NULL, 0, NULL, 0), 2);
    expect("steps of two", statement_steps(two, len, NULL, 0, NULL, 0, NULL, 0), 2);
    expect("fill of two into nothing", statement_fill(two, len, NULL, 0, NULL, 0, outcome, STATEMENT_OUTCOME_WORDS), 0);
    expect("its refusal", outcome[STATEMENT_REFUSAL], STATEMENT_TOO_FEW_SLOTS);
    expect("its count", outcome[STATEMENT_COUNT], 2);
    expect("part past nothing", statement_part(NULL, 0, 0, 1, NULL, 0, outcome, STATEMENT_OUTCOME_WORDS), 0);
    expect("its refusal", outcome[STATEMENT_REFUSAL], STATEMENT_OUTSIDE_BYTES);
    /* A first index in a memory of no record: fault 2. */
    expect("chain of no record", statement_chain_count(NULL, 0, 1, outcome, STATEMENT_OUTCOME_WORDS), 0);
    expect("its fault", outcome[STATEMENT_FAULT], 2);
    return failed ? EXIT_FAILURE : EXIT_SUCCESS;
}
