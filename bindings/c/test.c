/* Tests of what pbc.h says beside the calls' own answers: sizes that suffice, names, null pointers, targets past 32 bits, caps, the gates of
 * operations, rows, texts, threads. The argument is the folder of the adders (examples).
 * Exits with 1 at the first call that answers something else than expected. */
#include "pbc.h"

#include <pthread.h>
#include <stdio.h>
#include <stdlib.h>
#include <string.h>

enum { OWNER = 7, QUBITS = 5, GATES = 60, MOST = PBC_NARROW_NODES_FOR(QUBITS, GATES), WRITTEN = PBC_NARROW_OPERATIONS_FOR(GATES), THREADS = 4 };

static uint32_t gates[PBC_GATE_WORDS * GATES], frame[PBC_FRAME_WORDS(QUBITS)];
static uint32_t nodes[PBC_NODES_WORDS(MOST)], operations[PBC_OPERATIONS_WORDS(WRITTEN)];
static uint32_t scratch[PBC_SCRATCH_WORDS(MOST)], pool[PBC_POOL_WORDS(PBC_RECORDS_FOR(QUBITS, MOST))];
static uint64_t planes[PBC_PLANE_WORDS(QUBITS)], header[PBC_HEADER_WORDS], answer[PBC_ANSWER_WORDS];
static uint8_t rows[PBC_ROWS_BYTES(QUBITS, WRITTEN) + 1];

#define LENGTH(words) (sizeof(words) / sizeof *(words))
#define LENT(words) (words), LENGTH(words)
#define NONE NULL, 0

static void expect(const char *what, uint64_t got, uint64_t wanted)
{
    if (got != wanted) {
        fprintf(stderr, "%s: %llu (%s), expected %llu\n", what, (unsigned long long)got, pbc_refusal_name((uint32_t)got),
                (unsigned long long)wanted);
        exit(1);
    }
}

static uint32_t seed = 1;

static uint32_t below(uint32_t most)
{
    seed = seed * 1664525 + 1013904223;
    return (seed >> 8) % most;
}

/* The list's gate i is of a kind, on different qubits, into bit i. */
static void put_gate(size_t i, uint32_t kind)
{
    uint32_t *gate = gates + PBC_GATE_WORDS * i;
    uint32_t a = below(QUBITS), b = (a + 1 + below(QUBITS - 1)) % QUBITS, c = a;
    while (c == a || c == b)
        c = below(QUBITS);
    int two = kind == PBC_GATE_CNOT || kind == PBC_GATE_CZ || kind == PBC_GATE_SWAP || kind == PBC_GATE_CY;
    int three = kind == PBC_GATE_CCX || kind == PBC_GATE_CCZ;
    gate[0] = kind;
    gate[1] = a;
    gate[2] = two || three ? b : kind == PBC_GATE_MEASURE ? (uint32_t)i : 0;
    gate[3] = three ? c : 0;
}

static const uint32_t kinds[] = {PBC_GATE_H,  PBC_GATE_X,   PBC_GATE_Z,   PBC_GATE_S,       PBC_GATE_SDG, PBC_GATE_T,  PBC_GATE_TDG,  PBC_GATE_CNOT,
                                 PBC_GATE_CZ, PBC_GATE_CCX, PBC_GATE_CCZ, PBC_GATE_MEASURE, PBC_GATE_Y,   PBC_GATE_SX, PBC_GATE_SWAP, PBC_GATE_CY};

/* With as many nodes and operations as pbc.h says suffice. */
static uint32_t convert(uint64_t cap, size_t count)
{
    int narrow = cap == 1 || cap == 2;
    size_t most = narrow ? PBC_NARROW_NODES_FOR(QUBITS, count) : PBC_NODES_FOR(QUBITS, count);
    size_t written = narrow ? PBC_NARROW_OPERATIONS_FOR(count) : PBC_OPERATIONS_FOR(count);
    return pbc_convert(QUBITS, GATES, OWNER, cap, gates, PBC_GATE_WORDS * count, nodes, PBC_NODES_WORDS(most), operations,
                       PBC_OPERATIONS_WORDS(written), LENT(frame), LENT(planes), LENT(header), LENT(answer));
}

static uint32_t weights(void)
{
    return pbc_max_axis_weights(header, LENGTH(header), nodes, LENGTH(nodes), operations, LENGTH(operations), LENT(scratch), LENT(pool), UINT64_MAX,
                                LENT(answer));
}

static uint32_t weights_by_kind(void)
{
    return pbc_max_axis_weights_by_kind(header, LENGTH(header), nodes, LENGTH(nodes), operations, LENGTH(operations), LENT(scratch), LENT(pool),
                                        UINT64_MAX, LENT(answer));
}

static uint32_t expand_axes(size_t rows_len, size_t pool_len, uint64_t limit)
{
    return pbc_expand_axes(header, LENGTH(header), nodes, LENGTH(nodes), operations, LENGTH(operations), rows, rows_len, LENT(scratch), pool,
                           pool_len, limit, LENT(answer));
}

/* Random lists, and lists of one kind before measurements, which have it flushed under a cap of 1. */
static void sizes_suffice(void)
{
    static const uint64_t caps[] = {PBC_NO_CAP, 1, 2, 3, 4};
    for (int round = 0; round < 300; round++) {
        for (size_t i = 0; i < GATES; i++)
            put_gate(i, kinds[below(LENGTH(kinds))]);
        for (size_t c = 0; c < LENGTH(caps); c++) {
            expect("convert", convert(caps[c], GATES), PBC_ACCEPTED);
            expect("weights", weights(), PBC_ACCEPTED);
        }
    }
    for (size_t k = 0; k < LENGTH(kinds); k++) {
        for (size_t i = 0; i < GATES; i++)
            put_gate(i, i % 4 == 3 ? (uint32_t)PBC_GATE_MEASURE : kinds[k]);
        expect("convert", convert(1, GATES), PBC_ACCEPTED);
        expect("weights", weights(), PBC_ACCEPTED);
    }
    expect("nodes of swaps", PBC_NODES_FOR(2, 10), 1 + 2 * 2 + 90);
    expect("nodes of ccx in parts", PBC_NARROW_NODES_FOR(3, 10), 1 + 2 * 3 + 180);
    expect("operations of ccx in parts", PBC_NARROW_OPERATIONS_FOR(10), 310);
    expect("the most nodes", PBC_NODES_FOR(256, 65536), PBC_MAX_NODES);
    expect("the most operations", PBC_OPERATIONS_FOR(65536), PBC_MAX_OPERATIONS);
    expect("the most records", PBC_RECORDS_FOR(256, 65536), PBC_MAX_RECORDS);
    expect("planes of no qubit", PBC_PLANE_WORDS(0), 0);
    expect("planes of 64 qubits", PBC_PLANE_WORDS(64), 4 * 64);
    expect("planes of 65 qubits", PBC_PLANE_WORDS(65), 4 * 65 * 2);
}

/* A word less than the planes need is refused; so is a node or an operation less than a list of one swap, flushed, needs. */
static void less_does_not_suffice(void)
{
    static const uint32_t list[] = {PBC_GATE_SWAP, 0, 1, 0, PBC_GATE_CNOT, 0, 1, 0, PBC_GATE_MEASURE, 1, 0, 0};
    size_t lent = 1 + 2 * 2 + 9 + 3, written = 9 + 3 + 1;
    for (int less = 0; less < 4; less++) {
        uint32_t wanted = less == 1 ? PBC_NO_PLANES : less == 2 ? PBC_NO_NODES : less == 3 ? PBC_NO_OPERATIONS : PBC_ACCEPTED;
        expect("a swap flushed",
               pbc_convert(2, 1, OWNER, 1, list, LENGTH(list), nodes, PBC_NODES_WORDS(lent) - (less == 2), operations,
                           PBC_OPERATIONS_WORDS(written) - (less == 3), LENT(frame), planes, PBC_PLANE_WORDS(2) - (less == 1), LENT(header),
                           LENT(answer)),
               wanted);
    }
}

/* At a cap of 1, cnot 0 1 and t 1 write a Clifford rotation of weight 2. */
static void caps_hold_for_odd_angles(void)
{
    static const uint32_t list[] = {PBC_GATE_CNOT, 0, 1, 0, PBC_GATE_T, 1, 0, 0};
    memcpy(gates, list, sizeof list);
    expect("convert", convert(1, 2), PBC_ACCEPTED);
    expect("weights", weights(), PBC_ACCEPTED);
    expect("non-Clifford", answer[0], 1);
    expect("Clifford", answer[1], 2);
}

static void new_circuit(uint32_t qubits, uint32_t cbits)
{
    expect("new", pbc_new(qubits, cbits, OWNER, LENT(nodes), LENT(frame), LENT(header), LENT(answer)), PBC_ACCEPTED);
}

static void targets_past_32_bits(void)
{
    static const uint64_t targets[] = {UINT64_C(4294967297), UINT64_C(1) << 33, UINT64_MAX};
    new_circuit(1, PBC_MAX_CBITS);
    for (size_t i = 0; i < LENGTH(targets); i++) {
        expect("measure", pbc_measure(LENT(header), LENT(operations), OWNER, 4, targets[i], LENT(answer)), PBC_CLASSICAL_BIT_OUT_OF_RANGE);
        expect("its bit", answer[1], UINT64_C(4294967295));
    }
    expect("measure", pbc_measure(LENT(header), LENT(operations), OWNER, 4, UINT64_C(4294967296), LENT(answer)), PBC_CLASSICAL_BIT_OUT_OF_RANGE);
    expect("its bit", answer[1], UINT64_C(4294967295));
    expect("measure", pbc_measure(LENT(header), LENT(operations), OWNER, 4, PBC_MAX_CBITS, LENT(answer)), PBC_ACCEPTED);
    expect("measure", pbc_measure(LENT(header), LENT(operations), OWNER, 4, PBC_NO_TARGET, LENT(answer)), PBC_ACCEPTED);
    expect("its number", answer[0], 1);
}

/* Every gate is flushed by the measurement under a cap of 1, and its rotations name it; what a gate is lowered to names the gate. */
static void operations_name_their_gates(void)
{
    static const uint32_t list[] = {PBC_GATE_H,  0, 0, 0, PBC_GATE_Y,    0, 0, 0, PBC_GATE_SX, 0, 0, 0, PBC_GATE_SWAP,    0, 1, 0,
                                    PBC_GATE_CY, 0, 1, 0, PBC_GATE_CNOT, 2, 3, 0, PBC_GATE_T,  2, 0, 0, PBC_GATE_MEASURE, 3, 0, 0};
    static const uint64_t written[] = {3, 2, 7, 9, 5, 3, 0, 1};
    memcpy(gates, list, sizeof list);
    expect("convert", convert(1, LENGTH(written)), PBC_ACCEPTED);
    uint64_t seen[LENGTH(written)] = {0};
    /* The t stands before the flush. */
    expect("the gate of the t", operations[4], 6);
    for (uint64_t i = 1, last = 0; i < header[PBC_OPERATIONS]; i++) {
        uint32_t gate = operations[PBC_OPERATION_WORDS * i + 4];
        expect("in order", gate >= last && gate < LENGTH(written), 1);
        last = gate;
        seen[gate]++;
    }
    for (size_t i = 0; i < LENGTH(written); i++)
        expect("operations of a gate", seen[i], written[i]);
}

/* Operations that are added carry the mark, and a report refuses any other word that is no index. */
static void hand_is_marked(void)
{
    static const uint32_t words[] = {0, PBC_MAX_GATES - 1, PBC_MAX_GATES, PBC_HAND - 1, PBC_HAND};
    new_circuit(1, 1);
    expect("rotate", pbc_rotate(LENT(header), LENT(operations), OWNER, 4, 1, LENT(answer)), PBC_ACCEPTED);
    expect("measure", pbc_measure(LENT(header), LENT(operations), OWNER, 8, 1, LENT(answer)), PBC_ACCEPTED);
    expect("conditional", pbc_conditional_rotate(LENT(header), LENT(operations), OWNER, 4, 4, OWNER, 0, LENT(answer)), PBC_ACCEPTED);
    for (size_t i = 0; i < 3; i++)
        expect("the mark", operations[PBC_OPERATION_WORDS * i + 4], PBC_HAND);
    for (size_t i = 0; i < LENGTH(words); i++) {
        operations[PBC_OPERATION_WORDS + 4] = words[i];
        expect("weights", weights(), i == 2 || i == 3 ? PBC_BAD_STORE : PBC_ACCEPTED);
    }
}

/* X turned by 0, plainly and on a condition, is Clifford work for the first report alone; both charge it. */
static void zero_turns_weigh_nothing(void)
{
    new_circuit(1, 1);
    expect("rotate", pbc_rotate(LENT(header), LENT(operations), OWNER, 4, 0, LENT(answer)), PBC_ACCEPTED);
    expect("weights", weights(), PBC_ACCEPTED);
    expect("a turn by 0", answer[1], 1);
    expect("work", answer[2], 3);
    expect("weights by kind", weights_by_kind(), PBC_ACCEPTED);
    expect("a turn by 0, by kind", answer[1], 0);
    expect("work", answer[2], 3);
    expect("measure", pbc_measure(LENT(header), LENT(operations), OWNER, 8, 1, LENT(answer)), PBC_ACCEPTED);
    expect("conditional", pbc_conditional_rotate(LENT(header), LENT(operations), OWNER, 4, 8, OWNER, 0, LENT(answer)), PBC_ACCEPTED);
    expect("weights by kind", weights_by_kind(), PBC_ACCEPTED);
    expect("the measurement", answer[0], 1);
    expect("a conditional turn by 0", answer[1], 0);
    expect("rotate", pbc_rotate(LENT(header), LENT(operations), OWNER, 4, 2, LENT(answer)), PBC_ACCEPTED);
    expect("weights by kind", weights_by_kind(), PBC_ACCEPTED);
    expect("a turn by 2", answer[1], 1);
}

/* The second measurement into a bit is refused, with its gate and the bit; a measurement that is added is not. */
static void targets_are_taken_once(void)
{
    static const uint32_t list[] = {PBC_GATE_MEASURE, 0, 2, 0, PBC_GATE_MEASURE, 1, 1, 0, PBC_GATE_MEASURE, 1, 2, 0, 99, 0, 0, 0};
    memcpy(gates, list, sizeof list);
    expect("convert", convert(PBC_NO_CAP, 4), PBC_TARGET_TAKEN);
    expect("the gate", answer[0], 2);
    expect("the bit", answer[1], 2);
    expect("convert", convert(PBC_NO_CAP, 2), PBC_ACCEPTED);
    expect("measure", pbc_measure(LENT(header), LENT(operations), OWNER, 4, 3, LENT(answer)), PBC_ACCEPTED);
    expect("weights", weights(), PBC_ACCEPTED);
}

/* Whether the two factors of this handle commute. */
static void expect_commute(const char *what, uint32_t word, uint64_t commute)
{
    uint8_t letters[QUBITS];
    expect(what,
           pbc_expand(header, LENGTH(header), nodes, LENGTH(nodes), LENT(letters), LENT(scratch), LENT(pool), OWNER, word, UINT64_MAX, LENT(answer)),
           PBC_ACCEPTED);
    expect(what, answer[2], commute);
}

static uint32_t product(uint32_t left, uint32_t right)
{
    expect("product", pbc_product(LENT(header), LENT(nodes), OWNER, left, OWNER, right, LENT(answer)), PBC_ACCEPTED);
    return (uint32_t)answer[0];
}

/* X0 is the word 4, Z0 8, X1 12, Z1 16. */
static void factors_commute_or_not(void)
{
    new_circuit(2, 0);
    expect_commute("a single letter", 4, 1);
    expect_commute("X0 Z1", product(4, 16), 1);
    uint32_t clash = product(4, 8);
    expect_commute("X0 Z0", clash, 0);
    expect_commute("i X0 Z0", clash + 1, 0);
    expect_commute("X0 (i X0)", product(4, 5), 1);
    uint32_t x = product(4, 12), z = product(8, 16);
    expect_commute("(X0 X1) (Z0 Z1)", product(x, z), 1);
    expect_commute("(X0 X1) Z0", product(x, 8), 0);
    expect_commute("(X0 Z0) (X0 Z0)", product(clash, clash), 1);
}

/* With the header from before a product the next one takes its place. */
static void pairs_need_one_node(void)
{
    new_circuit(2, 0);
    uint64_t used = header[PBC_NODES];
    uint32_t first = product(4, 8);
    expect_commute("X0 Z0", first, 0);
    header[PBC_NODES] = used;
    expect("the same node", product(4, 16), first);
    expect_commute("X0 Z1", first, 1);
}

/* The first bytes of the rows have this value; then all are 9. */
static void expect_rows(const char *what, size_t count, uint64_t value)
{
    for (size_t i = 0; i < count; i++)
        expect(what, rows[i], value);
    memset(rows, 9, sizeof rows);
}

/* Each row is what expand says of its axis, in as many bytes as the header says. */
static void rows_are_the_axes(void)
{
    for (size_t i = 0; i < GATES; i++)
        put_gate(i, kinds[below(LENGTH(kinds))]);
    expect("convert", convert(3, GATES), PBC_ACCEPTED);
    size_t used = PBC_ROWS_BYTES(QUBITS, header[PBC_OPERATIONS]);
    expect("weights", weights(), PBC_ACCEPTED);
    uint64_t work = answer[2];
    memset(rows, 9, sizeof rows);
    expect("too few rows", expand_axes(used - 1, LENGTH(pool), work), PBC_NO_SCRATCH);
    expect_rows("a row after 16", sizeof rows, 9);
    expect("a small limit", expand_axes(used, LENGTH(pool), work - 1), PBC_EXPANSION_LIMIT);
    expect("a byte past the rows", rows[used], 9);
    expect_rows("a row after 17", used, 0);
    expect("a small pool", expand_axes(used, PBC_POOL_WORDS(2), work), PBC_NO_POOL);
    expect_rows("a row after 18", used, 0);
    expect("axes", expand_axes(sizeof rows, LENGTH(pool), work), PBC_ACCEPTED);
    expect("work", answer[0], work);
    expect("a byte past the rows", rows[used], 9);
    for (uint64_t i = 0; i < header[PBC_OPERATIONS]; i++) {
        uint8_t letters[QUBITS];
        const uint8_t *row = rows + PBC_ROW_BYTES(QUBITS) * i;
        expect("expand",
               pbc_expand(header, LENGTH(header), nodes, LENGTH(nodes), LENT(letters), LENT(scratch), LENT(pool), OWNER,
                          operations[PBC_OPERATION_WORDS * i + 1], UINT64_MAX, LENT(answer)),
               PBC_ACCEPTED);
        expect("letters", (uint64_t)memcmp(row, letters, QUBITS), 0);
        expect("phase", row[QUBITS], answer[0]);
    }
    operations[4] = PBC_MAX_GATES;
    expect("a bad operation", expand_axes(sizeof rows, LENGTH(pool), work), PBC_BAD_STORE);
}

/* 58 bytes, on four lines. */
#define LINES "OPENQASM 2.0;\ninclude \"qelib1.inc\";\nqreg q[3];\ncreg c[2];\n"

static uint32_t read_qasm(const char *text, size_t gates_len) { return pbc_read_qasm(text, strlen(text), gates, gates_len, LENT(answer)); }

static void texts_are_gates(void)
{
    static const char text[] = LINES "h q[0];x q[1];y q[2];z q[0];s q[1];sdg q[2];t q[0];tdg q[1];cx q[0],q[1];cy q[1],q[2];cz q[2],q[0];\n"
                                     "ccx q[2],q[1],q[0]; // all but the last\n measure q[2]->c[1];";
    static const uint32_t wanted[] = {PBC_GATE_H,       0, 0, 0, PBC_GATE_X,   1, 0, 0, PBC_GATE_Y,  2, 0, 0, PBC_GATE_Z,   0, 0, 0,
                                      PBC_GATE_S,       1, 0, 0, PBC_GATE_SDG, 2, 0, 0, PBC_GATE_T,  0, 0, 0, PBC_GATE_TDG, 1, 0, 0,
                                      PBC_GATE_CNOT,    0, 1, 0, PBC_GATE_CY,  1, 2, 0, PBC_GATE_CZ, 2, 0, 0, PBC_GATE_CCX, 2, 1, 0,
                                      PBC_GATE_MEASURE, 2, 1, 0};
    memset(gates, 9, sizeof gates);
    expect("no room", read_qasm(text, LENGTH(wanted) - 1), PBC_NO_GATE_ROOM);
    expect("a word after 21", gates[0], 0x09090909);
    expect("read", read_qasm(text, LENGTH(wanted)), PBC_ACCEPTED);
    expect("gates", answer[0], LENGTH(wanted) / PBC_GATE_WORDS);
    expect("qubits", answer[1], 3);
    expect("classical bits", answer[2], 2);
    expect("their words", (uint64_t)memcmp(gates, wanted, sizeof wanted), 0);
    expect("a word past them", gates[LENGTH(wanted)], 0x09090909);
    expect("a short answer", pbc_read_qasm(text, strlen(text), LENT(gates), answer, PBC_ANSWER_WORDS - 1), PBC_TOO_SHORT);
}

/* The shortest gates after the shortest lines before them, as many as the slice holds. */
static void gates_for_text_suffice(void)
{
    static const char lines[] = "OPENQASM 2.0;include\"qelib1.inc\";qreg a[1];creg b[1];", gate[] = "h a[0];";
    static char text[sizeof lines + GATES * sizeof gate];
    strcpy(text, lines);
    for (size_t i = 0; i <= GATES; i++) {
        size_t most = PBC_GATES_FOR_TEXT(strlen(text));
        expect("read", read_qasm(text, PBC_GATES_WORDS(most < GATES ? most : GATES)), PBC_ACCEPTED);
        expect("gates", answer[0], i);
        if (i)
            expect("a gate less", read_qasm(text, PBC_GATES_WORDS(i - 1)), PBC_NO_GATE_ROOM);
        strcat(text, i < GATES ? gate : "");
    }
}

static void expect_position(const char *text, size_t text_len, uint64_t place, uint64_t line, uint64_t column)
{
    expect("position", pbc_text_position(text, text_len, place, LENT(answer)), PBC_ACCEPTED);
    expect("line", answer[0], line);
    expect("column", answer[1], column);
}

static void places_are_lines_and_columns(void)
{
    static const struct {
        const char *text;
        uint64_t place, line, column;
    } bad[] = {
        {"", 0, 1, 1},
        {"// nothing", 10, 1, 11},
        {"OPENQASM2.0;", 0, 1, 1},
        {"OPENQASM 2.0;include \"qelib1.inc\";qreg q[1]; // end", 51, 1, 52},
        {LINES "h q[0];\n\t swap q[0],q[1];\n", 68, 6, 3},
        {LINES "h//\rq[0];", 58, 5, 1},
        {LINES "h q[4294967295]; h q[4294967296];", 75, 5, 18},
    };
    for (size_t i = 0; i < LENGTH(bad); i++) {
        expect("bad text", read_qasm(bad[i].text, LENGTH(gates)), PBC_BAD_TEXT);
        expect("index", answer[0], 0);
        expect("place", answer[1], bad[i].place);
        expect_position(bad[i].text, strlen(bad[i].text), bad[i].place, bad[i].line, bad[i].column);
    }
    expect_position("h;\r\nh;", 6, 3, 1, 4);
    expect_position("h;\r\nh;", 6, 6, 2, 3);
    expect_position("h;\r\nh;", 6, UINT64_MAX, 2, 3);
    expect("a short answer", pbc_text_position("\n", 1, 0, answer, PBC_ANSWER_WORDS - 1), PBC_TOO_SHORT);
}

/* A file of the adders, ended by a zero. */
static const char *load(const char *folder, const char *name, const char *ending)
{
    static char bytes[10000], path[1000];
    snprintf(path, sizeof path, "%s/%s.%s", folder, name, ending);
    FILE *file = fopen(path, "rb");
    if (!file) {
        perror(path);
        exit(1);
    }
    bytes[fread(bytes, 1, sizeof bytes - 1, file)] = 0;
    fclose(file);
    return bytes;
}

static uint64_t next_number(const char **rest)
{
    char *end;
    uint64_t number = strtoull(*rest, &end, 10);
    *rest = end;
    return number;
}

static void expect_words(const char **rest, const uint32_t *words, uint64_t count)
{
    expect("how many words", next_number(rest), count);
    for (uint64_t i = 0; i < count; i++)
        expect("a word", words[i], next_number(rest));
}

/* Their texts convert to what the command answers to their lines. */
static void adders_convert_alike(const char *folder)
{
    static const char *const names[] = {"cuccaro-2", "cuccaro-4", "ladder-2", "ladder-4"};
    enum { WIDEST = 10 };
    static uint32_t images[PBC_FRAME_WORDS(WIDEST)];
    for (size_t i = 0; i < LENGTH(names); i++) {
        expect("read", read_qasm(load(folder, names[i], "qasm"), LENGTH(gates)), PBC_ACCEPTED);
        size_t count = (size_t)answer[0];
        uint32_t qubits = (uint32_t)answer[1], cbits = (uint32_t)answer[2];
        expect("convert",
               pbc_convert(qubits, cbits, OWNER, PBC_NO_CAP, gates, PBC_GATES_WORDS(count), LENT(nodes), LENT(operations), LENT(images), NONE,
                           LENT(header), LENT(answer)),
               PBC_ACCEPTED);
        const char *rest = load(folder, names[i], "out");
        expect("the answer", (uint64_t)strncmp(rest, "ok ", 3), 0);
        rest += 3;
        expect("qubits", next_number(&rest), qubits);
        expect("classical bits", next_number(&rest), cbits);
        expect("measurements", next_number(&rest), header[PBC_MEASUREMENTS]);
        expect_words(&rest, nodes, PBC_NODE_WORDS * header[PBC_NODES]);
        expect_words(&rest, operations, PBC_OPERATION_WORDS * header[PBC_OPERATIONS]);
        expect_words(&rest, images, PBC_FRAME_WORDS(qubits));
    }
}

/* Null slices, alone and together, are answered as empty ones. */
static void null_is_empty(void)
{
    expect("new", pbc_new(1, 0, OWNER, NONE, NONE, NONE, NONE), PBC_TOO_SHORT);
    expect("new", pbc_new(1, 0, OWNER, NONE, LENT(frame), LENT(header), LENT(answer)), PBC_NO_NODES);
    expect("new", pbc_new(1, 0, OWNER, LENT(nodes), NONE, LENT(header), LENT(answer)), PBC_NO_FRAME);
    expect("new", pbc_new(0, 0, OWNER, LENT(nodes), NONE, LENT(header), LENT(answer)), PBC_ACCEPTED);
    expect("convert", pbc_convert(1, 0, OWNER, 3, NONE, NONE, NONE, NONE, NONE, NONE, NONE), PBC_TOO_SHORT);
    expect("convert", pbc_convert(1, 0, OWNER, 3, NONE, NONE, NONE, NONE, NONE, LENT(header), LENT(answer)), PBC_NO_PLANES);
    expect("convert", pbc_convert(1, 0, OWNER, PBC_NO_CAP, NONE, NONE, NONE, NONE, NONE, LENT(header), LENT(answer)), PBC_NO_FRAME);
    expect("convert", pbc_convert(1, 0, OWNER, PBC_NO_CAP, NONE, NONE, NONE, LENT(frame), NONE, LENT(header), LENT(answer)), PBC_NO_NODES);
    expect("convert", pbc_convert(0, 0, OWNER, 3, NONE, LENT(nodes), NONE, NONE, NONE, LENT(header), LENT(answer)), PBC_ACCEPTED);
    expect("expand", pbc_expand(header, LENGTH(header), nodes, LENGTH(nodes), NONE, LENT(scratch), NONE, OWNER, 0, 100, LENT(answer)),
           PBC_ACCEPTED);
    expect("convert", pbc_convert(1, 0, OWNER, PBC_NO_CAP, NONE, LENT(nodes), NONE, LENT(frame), NONE, LENT(header), LENT(answer)), PBC_ACCEPTED);
    expect("weights", pbc_max_axis_weights(header, LENGTH(header), nodes, LENGTH(nodes), NONE, LENT(scratch), NONE, 100, LENT(answer)),
           PBC_ACCEPTED);
    expect("weights", pbc_max_axis_weights(NONE, NONE, NONE, NONE, NONE, 100, LENT(answer)), PBC_TOO_SHORT);
    expect("weights by kind", pbc_max_axis_weights_by_kind(header, LENGTH(header), nodes, LENGTH(nodes), NONE, LENT(scratch), NONE, 100, LENT(answer)),
           PBC_ACCEPTED);
    expect("weights by kind", pbc_max_axis_weights_by_kind(NONE, NONE, NONE, NONE, NONE, 100, LENT(answer)), PBC_TOO_SHORT);
    expect("axes", pbc_expand_axes(header, LENGTH(header), nodes, LENGTH(nodes), NONE, NONE, LENT(scratch), NONE, 100, LENT(answer)), PBC_ACCEPTED);
    expect("axes", pbc_expand_axes(header, LENGTH(header), nodes, LENGTH(nodes), NONE, NONE, NONE, NONE, 100, LENT(answer)), PBC_NO_SCRATCH);
    expect("axes", pbc_expand_axes(header, LENGTH(header), NONE, NONE, NONE, NONE, NONE, 100, LENT(answer)), PBC_BAD_STORE);
    expect("axes", pbc_expand_axes(NONE, NONE, NONE, NONE, NONE, NONE, 100, LENT(answer)), PBC_TOO_SHORT);
    expect("expand", pbc_expand(header, LENGTH(header), NONE, NONE, NONE, NONE, OWNER, 4, 100, LENT(answer)), PBC_BAD_STORE);
    expect("expand", pbc_expand(header, LENGTH(header), nodes, LENGTH(nodes), NONE, NONE, NONE, OWNER, 4, 100, LENT(answer)), PBC_NO_SCRATCH);
    uint8_t letter;
    expect("expand", pbc_expand(header, LENGTH(header), nodes, LENGTH(nodes), &letter, 1, LENT(scratch), NONE, OWNER, 4, 100, LENT(answer)),
           PBC_NO_POOL);
    expect("axis", pbc_hermitian_axis(header, LENGTH(header), nodes, LENGTH(nodes), NONE, NONE, OWNER, 4, 100, LENT(answer)), PBC_NO_SCRATCH);
    expect("single", pbc_single(LENT(header), NONE, 0, PBC_PAULI_Y, LENT(answer)), PBC_BAD_STORE);
    expect("product", pbc_product(LENT(header), NONE, OWNER, 4, OWNER, 8, LENT(answer)), PBC_BAD_STORE);
    expect("rotate", pbc_rotate(LENT(header), NONE, OWNER, 4, 1, LENT(answer)), PBC_NO_OPERATIONS);
    expect("measure", pbc_measure(LENT(header), NONE, OWNER, 4, PBC_NO_TARGET, LENT(answer)), PBC_NO_OPERATIONS);
    expect("conditional", pbc_conditional_rotate(LENT(header), NONE, OWNER, 4, 1, OWNER, 0, LENT(answer)), PBC_UNKNOWN_MEASUREMENT);
    expect("frame gate", pbc_push_output_clifford(LENT(header), LENT(nodes), NONE, PBC_GATE_H, 0, 0, LENT(answer)), PBC_NO_FRAME);
    expect("frame gate", pbc_push_output_clifford(LENT(header), NONE, NONE, PBC_GATE_H, 0, 0, LENT(answer)), PBC_BAD_STORE);
    expect("read", pbc_read_qasm(NONE, NONE, NONE), PBC_TOO_SHORT);
    expect("read", pbc_read_qasm(NONE, NONE, LENT(answer)), PBC_BAD_TEXT);
    expect("read", pbc_read_qasm(LINES "h q[0];", sizeof LINES + 6, NONE, LENT(answer)), PBC_NO_GATE_ROOM);
    expect("read", pbc_read_qasm(LINES, sizeof LINES - 1, NONE, LENT(answer)), PBC_ACCEPTED);
    expect("position", pbc_text_position(NONE, 7, LENT(answer)), PBC_ACCEPTED);
    expect("line", answer[0], 1);
    expect("position", pbc_text_position(NONE, 7, NONE), PBC_TOO_SHORT);
}

static void names(void)
{
    static const char *const some[] = {"Accepted", "TooManyQubits", "BrokenGateList"};
    for (uint32_t number = 0; number < LENGTH(some); number++)
        expect("name", (uint64_t)strcmp(pbc_refusal_name(number), some[number]), 0);
    expect("the last but one", (uint64_t)strcmp(pbc_refusal_name(PBC_BAD_TEXT), "BadText"), 0);
    expect("the last name", (uint64_t)strcmp(pbc_refusal_name(PBC_NO_GATE_ROOM), "NoGateRoom"), 0);
    expect("past the gap", (uint64_t)strcmp(pbc_refusal_name(PBC_TARGET_TAKEN), "TargetTaken"), 0);
    expect("too short", (uint64_t)strcmp(pbc_refusal_name(PBC_TOO_SHORT), "TooShort"), 0);
    expect("unknown", (uint64_t)strcmp(pbc_refusal_name(22), "Unknown"), 0);
    expect("i", pbc_times(PBC_PAULI_X, PBC_PAULI_Y), 4 * PBC_PHASE_I + PBC_PAULI_Z);
    expect("-i", pbc_times(PBC_PAULI_Y, PBC_PAULI_X), 4 * PBC_PHASE_MINUS_I + PBC_PAULI_Z);
}

/* The letters of every axis, with words of this thread's own. */
static void *read_all(void *from)
{
    uint64_t *sum = from, mine[PBC_ANSWER_WORDS];
    uint32_t *walk = calloc(LENGTH(scratch) + LENGTH(pool), sizeof *walk);
    for (int round = 0; round < 20; round++)
        for (uint64_t i = 0; i < header[PBC_OPERATIONS]; i++) {
            uint8_t letters[QUBITS];
            uint32_t word = operations[PBC_OPERATION_WORDS * i + 1];
            expect("expand",
                   pbc_expand(header, LENGTH(header), nodes, LENGTH(nodes), LENT(letters), walk, LENGTH(scratch), walk + LENGTH(scratch),
                              LENGTH(pool), OWNER, word, UINT64_MAX, LENT(mine)),
                   PBC_ACCEPTED);
            for (size_t q = 0; q < QUBITS; q++)
                *sum = *sum * 31 + letters[q];
            *sum = *sum * 31 + mine[0];
        }
    free(walk);
    return NULL;
}

static void threads_read_one_circuit(void)
{
    pthread_t thread[THREADS];
    uint64_t sum[THREADS + 1] = {0};
    for (size_t i = 0; i < GATES; i++)
        put_gate(i, kinds[below(LENGTH(kinds))]);
    expect("convert", convert(PBC_NO_CAP, GATES), PBC_ACCEPTED);
    read_all(&sum[THREADS]);
    for (int i = 0; i < THREADS; i++)
        expect("thread", (uint64_t)pthread_create(&thread[i], NULL, read_all, &sum[i]), 0);
    for (int i = 0; i < THREADS; i++)
        pthread_join(thread[i], NULL);
    for (int i = 0; i < THREADS; i++)
        expect("letters", sum[i], sum[THREADS]);
}

int main(int count, char **arguments)
{
    sizes_suffice();
    less_does_not_suffice();
    caps_hold_for_odd_angles();
    targets_past_32_bits();
    operations_name_their_gates();
    hand_is_marked();
    zero_turns_weigh_nothing();
    factors_commute_or_not();
    pairs_need_one_node();
    targets_are_taken_once();
    rows_are_the_axes();
    texts_are_gates();
    gates_for_text_suffice();
    places_are_lines_and_columns();
    adders_convert_alike(count > 1 ? arguments[1] : "examples");
    null_is_empty();
    names();
    threads_read_one_circuit();
    return 0;
}
