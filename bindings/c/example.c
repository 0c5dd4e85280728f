/* Reads the OpenQASM 2 text of a 2-bit ripple-carry adder (Cuccaro, Draper, Kutin and Moulton) with measured sums, converts it, and prints each
 * operation with its gate and the letters of its axis. Exits with 1 where a call answers something else than expected. */
#include "pbc.h"

#include <stdio.h>
#include <stdlib.h>

static const char adder[] = "OPENQASM 2.0;\n"
                            "include \"qelib1.inc\";\n"
                            "qreg q[6]; // carry in, b_0, a_0, b_1, a_1, carry out\n"
                            "creg c[3];\n"
                            "cx q[2],q[1]; cx q[2],q[0]; ccx q[0],q[1],q[2];\n"
                            "cx q[4],q[3]; cx q[4],q[2]; ccx q[2],q[3],q[4];\n"
                            "cx q[4],q[5];\n"
                            "ccx q[2],q[3],q[4]; cx q[4],q[2]; cx q[2],q[3];\n"
                            "ccx q[0],q[1],q[2]; cx q[2],q[0]; cx q[0],q[1];\n"
                            "measure q[1] -> c[0]; measure q[3] -> c[1]; measure q[5] -> c[2];\n";

/* A swap is a gate of the library's, but none of the text's. */
static const char wrong[] = "OPENQASM 2.0;\n"
                            "include \"qelib1.inc\";\n"
                            "qreg q[2];\n"
                            "creg c[1];\n"
                            "h q[0]; swap q[0],q[1];\n";

/* Room for the gates, and for what is added by hand below. */
enum { QUBITS = 6, CBITS = 3, OWNER = 11, LIMIT = 100000, GATES = PBC_GATES_FOR_TEXT(sizeof adder) };
enum { NODES = PBC_NODES_FOR(QUBITS, GATES) + 2, OPERATIONS = PBC_OPERATIONS_FOR(GATES) + 1, RECORDS = PBC_RECORDS_FOR(QUBITS, NODES) };

static uint32_t gates[PBC_GATES_WORDS(GATES)];
static uint32_t nodes[PBC_NODES_WORDS(NODES)], operations[PBC_OPERATIONS_WORDS(OPERATIONS)], frame[PBC_FRAME_WORDS(QUBITS)];
static uint32_t scratch[PBC_SCRATCH_WORDS(NODES)], pool[PBC_POOL_WORDS(RECORDS)];
static uint64_t header[PBC_HEADER_WORDS], answer[PBC_ANSWER_WORDS];
static uint8_t rows[PBC_ROWS_BYTES(QUBITS, OPERATIONS)];

static void expect(const char *what, uint32_t number, uint32_t wanted)
{
    if (number != wanted) {
        fprintf(stderr, "%s: %u %s (index %llu, operand %llu), expected %u\n", what, number, pbc_refusal_name(number),
                (unsigned long long)answer[0], (unsigned long long)answer[1], wanted);
        exit(1);
    }
}

static uint32_t read_qasm(const char *text, size_t text_len)
{
    return pbc_read_qasm(text, text_len, gates, PBC_GATES_WORDS(GATES), answer, PBC_ANSWER_WORDS);
}

static uint32_t convert(size_t count, size_t nodes_len, size_t operations_len, size_t header_len)
{
    return pbc_convert(QUBITS, CBITS, OWNER, PBC_NO_CAP, gates, PBC_GATES_WORDS(count), nodes, nodes_len, operations, operations_len, frame,
                       PBC_FRAME_WORDS(QUBITS), NULL, 0, header, header_len, answer, PBC_ANSWER_WORDS);
}

static uint32_t expand(uint32_t word, uint8_t *letters, uint64_t max_cells)
{
    return pbc_expand(header, PBC_HEADER_WORDS, nodes, PBC_NODE_WORDS * NODES, letters, QUBITS, scratch, PBC_SCRATCH_WORDS(NODES), pool,
                      PBC_POOL_WORDS(RECORDS), OWNER, word, max_cells, answer, PBC_ANSWER_WORDS);
}

static uint32_t expand_axes(uint64_t limit)
{
    return pbc_expand_axes(header, PBC_HEADER_WORDS, nodes, PBC_NODES_WORDS(NODES), operations, PBC_OPERATIONS_WORDS(OPERATIONS), rows, sizeof rows,
                           scratch, PBC_SCRATCH_WORDS(NODES), pool, PBC_POOL_WORDS(RECORDS), limit, answer, PBC_ANSWER_WORDS);
}

static void print_operation(uint64_t i)
{
    static const char *const kinds[] = {"rotate", "measure", "conditional"}, *const phases[] = {"+", "+i", "-", "-i"};
    const uint32_t *op = operations + PBC_OPERATION_WORDS * i;
    const uint8_t *row = rows + PBC_ROW_BYTES(QUBITS) * i;
    if (op[4] == PBC_HAND)
        printf("by hand: ");
    else
        printf("gate %u: ", op[4]);
    printf("%s %u %s", kinds[op[0] % 4], op[0] / 4, phases[row[QUBITS]]);
    for (int q = 0; q < QUBITS; q++)
        putchar("IXYZ"[row[q]]);
    if (op[3])
        printf(" into %u", op[3] - 1);
    putchar('\n');
}

int main(void)
{
    uint8_t letters[QUBITS];
    expect("wrong text", read_qasm(wrong, sizeof wrong - 1), PBC_BAD_TEXT);
    expect("position", pbc_text_position(wrong, sizeof wrong - 1, answer[1], answer, PBC_ANSWER_WORDS), 0);
    printf("line %llu, column %llu: no statement of the subset begins here\n", (unsigned long long)answer[0], (unsigned long long)answer[1]);

    expect("read", read_qasm(adder, sizeof adder - 1), 0);
    expect("qubits", (uint32_t)answer[1], QUBITS);
    expect("classical bits", (uint32_t)answer[2], CBITS);
    size_t count = (size_t)answer[0];
    expect("short header", convert(count, PBC_NODES_WORDS(NODES), PBC_OPERATIONS_WORDS(OPERATIONS), 5), PBC_TOO_SHORT);
    expect("few nodes", convert(count, 2 * 13, PBC_OPERATIONS_WORDS(OPERATIONS), PBC_HEADER_WORDS), PBC_NO_NODES);
    expect("few operations", convert(count, PBC_NODES_WORDS(NODES), 0, PBC_HEADER_WORDS), PBC_NO_OPERATIONS);
    expect("convert", convert(count, PBC_NODES_WORDS(NODES), PBC_OPERATIONS_WORDS(OPERATIONS), PBC_HEADER_WORDS), 0);
    printf("%llu nodes, %llu operations, %llu measurements\n", (unsigned long long)header[PBC_NODES], (unsigned long long)header[PBC_OPERATIONS],
           (unsigned long long)header[PBC_MEASUREMENTS]);
    expect("axes", expand_axes(LIMIT), 0);
    for (uint64_t i = 0; i < header[PBC_OPERATIONS]; i++)
        print_operation(i);

    expect("small limit", expand_axes(answer[0] - 1), PBC_EXPANSION_LIMIT);
    expect("small budget", expand(operations[1], letters, QUBITS), PBC_EXPANSION_LIMIT);
    expect("weights",
           pbc_max_axis_weights(header, PBC_HEADER_WORDS, nodes, PBC_NODES_WORDS(NODES), operations, PBC_OPERATIONS_WORDS(OPERATIONS), scratch,
                                PBC_SCRATCH_WORDS(NODES), pool, PBC_POOL_WORDS(RECORDS), LIMIT, answer, PBC_ANSWER_WORDS),
           0);
    printf("heaviest axes: %llu non-Clifford, %llu Clifford\n", (unsigned long long)answer[0], (unsigned long long)answer[1]);

    /* By hand: the product of X and Z of one qubit is -iY, so it is no axis; i times it is. */
    uint32_t x = 4 * 1, z = 4 * 2;
    expect("product", pbc_product(header, PBC_HEADER_WORDS, nodes, PBC_NODES_WORDS(NODES), OWNER, x, OWNER, z, answer, PBC_ANSWER_WORDS), 0);
    uint32_t y = (uint32_t)answer[0];
    expect("expand", expand(y, letters, LIMIT), 0);
    printf("X and Z of one qubit %s\n", answer[2] ? "commute" : "do not commute");
    for (uint32_t phase = 0; phase < 2; phase++)
        expect("hermitian",
               pbc_hermitian_axis(header, PBC_HEADER_WORDS, nodes, PBC_NODES_WORDS(NODES), scratch, PBC_SCRATCH_WORDS(NODES), pool,
                                  PBC_POOL_WORDS(RECORDS), OWNER, y + phase, LIMIT, answer, PBC_ANSWER_WORDS),
               phase ? 0 : PBC_NON_HERMITIAN_AXIS);
    expect("rotate", pbc_rotate(header, PBC_HEADER_WORDS, operations, PBC_OPERATIONS_WORDS(OPERATIONS), OWNER, y + 1, -3, answer, PBC_ANSWER_WORDS),
           0);
    expect("axes", expand_axes(LIMIT), 0);
    print_operation(header[PBC_OPERATIONS] - 1);
    expect("frame gate",
           pbc_push_output_clifford(header, PBC_HEADER_WORDS, nodes, PBC_NODES_WORDS(NODES), frame, PBC_FRAME_WORDS(QUBITS), PBC_GATE_S, 0, 0,
                                    answer, PBC_ANSWER_WORDS),
           0);
    expect("t on the frame",
           pbc_push_output_clifford(header, PBC_HEADER_WORDS, nodes, PBC_NODES_WORDS(NODES), frame, PBC_FRAME_WORDS(QUBITS), PBC_GATE_T, 0, 0,
                                    answer, PBC_ANSWER_WORDS),
           PBC_NON_CLIFFORD_FRAME_GATE);
    expect("its kind", (uint32_t)answer[1], PBC_GATE_T);
    expect("angle", pbc_angle(-1), 7);
    expect("times", pbc_times(PBC_PAULI_X, PBC_PAULI_Y), 4 * PBC_PHASE_I + PBC_PAULI_Z);
    return 0;
}
