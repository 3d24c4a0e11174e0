/* The engine from C: runs the tape of `qubits 2`, `x 0`, `iswap 0 1` and prints the parity of each qubit.
 *   cc -Iinclude examples/parity.c target/staticlib/libengine.a -o target/parity && target/parity */
#include <stdio.h>
#include "jozkeral.h"

/* Room for the largest tape; a smaller one needs less. */
enum { N = JOZKERAL_MAX_QUBITS, G = JOZKERAL_MAX_GATES };
static double work[JOZKERAL_WORK_PLACES(G, N)], ops[JOZKERAL_OPS_PLACES(G, N)], state[JOZKERAL_STATE_PLACES(N)];
static uint32_t marks[JOZKERAL_MARK_PLACES(G, N)];

int main(void) {
    const uint8_t tape[] = {
        0x51, 0x48, 2, 3, 0, 0, 0, 0, 0, 0, 0, 0, 0, 0, 0, 0x40, 0, 0, 0, 0, /* header: 2 qubits, flags 3, tolerance 0, limit */
        0x51, 0x47, 0x02, 0,                                                /* X on qubit 0 */
        0x51, 0x47, 0x13, 0, 1,                                             /* ISwap on 0 and 1 */
    };
    uint64_t place[1], row[1], report[JOZKERAL_REPORT_WORDS];
    double measures[JOZKERAL_MEASURES], z_work[JOZKERAL_QUERY_PLACES(1)], z[1];
    uint16_t tables[JOZKERAL_TABLE_PLACES];
    uint64_t refused = jozkeral_run(tape, sizeof tape, work, JOZKERAL_WORK_PLACES(G, N), marks, JOZKERAL_MARK_PLACES(G, N),
                                    ops, JOZKERAL_OPS_PLACES(G, N), state, JOZKERAL_STATE_PLACES(N), place, 1,
                                    report, JOZKERAL_REPORT_WORDS, measures, JOZKERAL_MEASURES, tables, JOZKERAL_TABLE_PLACES);
    if (refused) {
        printf("refused %llu at %llu\n", (unsigned long long)refused, (unsigned long long)place[0]);
        return 1;
    }
    const size_t n = report[JOZKERAL_WORD_N];
    for (size_t q = 0; q < n; q++) { /* the parity of a qubit: the product of Z over the list of it alone */
        jozkeral_expectation_z_product(n, state, JOZKERAL_STATE_PLACES(N), tables + JOZKERAL_MODES_AT, JOZKERAL_MAX_QUBITS,
                                       &q, 1, z_work, JOZKERAL_QUERY_PLACES(1), place, 1, z, 1, row, 1);
        printf("q%zu %g%s\n", q, z[0], row[0] ? " found" : ""); /* a zero with a row was found and not worked out */
    }
    return 0;
}
