/* The library as it is beside the library as it was, in one process, on the same inputs: conversions, weight reports, all axes in one walk, and up to 32
 * axes one by one, of adders and of random lists. Before a report or an expansion is timed, the answers of both are compared.
 * Times are the least of repeated rounds, both libraries in turn; conversions of a random workload go over several lists, so that none is learnt by heart.
 * usage: before [--once] WORDS_NOW WORDS_BEFORE WORD [FILE.pbc..]
 *   --once: each call once, and nothing printed, for a program that counts instructions
 *   WORDS_NOW, WORDS_BEFORE: the u32 words of an operation in each; WORD: only workloads whose names contain it; files with one `convert` line each */
#include <stdint.h>
#include <stdio.h>
#include <stdlib.h>
#include <string.h>
#include <time.h>

#define CONVERT(NAME)                                                                                                                       \
    uint32_t NAME(uint32_t qubits, uint32_t cbits, uint64_t owner, uint64_t cap, const uint32_t *gates, size_t gates_len, uint32_t *nodes,   \
                  size_t nodes_len, uint32_t *operations, size_t operations_len, uint32_t *frame, size_t frame_len, uint64_t *planes,       \
                  size_t planes_len, uint64_t *header, size_t header_len, uint64_t *answer, size_t answer_len)
#define WEIGHTS(NAME)                                                                                                                       \
    uint32_t NAME(uint64_t *header, size_t header_len, const uint32_t *nodes, size_t nodes_len, const uint32_t *operations,                 \
                  size_t operations_len, uint32_t *scratch, size_t scratch_len, uint32_t *pool, size_t pool_len, uint64_t limit,            \
                  uint64_t *answer, size_t answer_len)
#define AXES(NAME)                                                                                                                          \
    uint32_t NAME(const uint64_t *header, size_t header_len, const uint32_t *nodes, size_t nodes_len, const uint32_t *operations,           \
                  size_t operations_len, uint8_t *rows, size_t rows_len, uint32_t *scratch, size_t scratch_len, uint32_t *pool,             \
                  size_t pool_len, uint64_t limit, uint64_t *answer, size_t answer_len)
#define EXPAND(NAME)                                                                                                                        \
    uint32_t NAME(const uint64_t *header, size_t header_len, const uint32_t *nodes, size_t nodes_len, uint8_t *letters, size_t letters_len, \
                  uint32_t *scratch, size_t scratch_len, uint32_t *pool, size_t pool_len, uint64_t owner, uint32_t word, uint64_t max_cells, \
                  uint64_t *answer, size_t answer_len)
typedef CONVERT((*Convert));
typedef WEIGHTS((*Weights));
typedef AXES((*Axes));
typedef EXPAND((*Expand));
CONVERT(pbc_convert);
CONVERT(before_pbc_convert);
WEIGHTS(pbc_max_axis_weights);
WEIGHTS(before_pbc_max_axis_weights);
AXES(pbc_expand_axes);
AXES(before_pbc_expand_axes);
EXPAND(pbc_expand);
EXPAND(before_pbc_expand);

enum { NODES = 131072, OPERATIONS = 5 * 65536, FRAME = 512, PLANES = 4096, SCRATCH = 262144, POOL = 196608, ROWS = 257 * 65536, LISTS = 8, NO_POOL = 18 };
enum { OWNER = 1, QUBITS = 256, ONE_BY_ONE = 32 };
enum { CONVERSION, REPORT, AXES_IN_ONE_WALK, AXES_ONE_BY_ONE, CALLS };
enum { MEASURE = 12 };

typedef struct {
    Convert convert;
    Weights weights;
    Axes axes;
    Expand expand;
    size_t words;
    uint32_t nodes[NODES], operations[OPERATIONS], frame[FRAME], scratch[SCRATCH], pool[POOL];
    uint64_t planes[PLANES], header[6], answer[4];
    uint8_t rows[ROWS];
} Library;

typedef struct {
    uint32_t qubits, cbits;
    size_t len;
    uint32_t *words;
} List;

static const char *const prefixes[CALLS] = {"", "report, ", "all axes, ", "expand, "};
static Library now, before;
static Library *const both[2] = {&now, &before};
static double sums[CALLS];
static int count[CALLS], once;
static const char *word;

static double seconds(void) {
    struct timespec t;
    clock_gettime(CLOCK_MONOTONIC, &t);
    return (double)t.tv_sec + 1e-9 * (double)t.tv_nsec;
}

static uint32_t next(uint64_t *seed) {
    *seed = *seed * 6364136223846793005u + 1442695040888963407u;
    return (uint32_t)(*seed >> 33);
}

static List random_list(uint32_t qubits, size_t gates, uint64_t *seed) {
    static const uint32_t kinds[] = {0, 1, 2, 3, 4, 5, 6, 8, 9, 10, 11, 12, 15, 16, 19, 20};
    List list = {qubits, 65536, 4 * gates, malloc(16 * gates)};
    for (size_t i = 0; i < gates; i++) {
        uint32_t *w = list.words + 4 * i;
        w[0] = kinds[next(seed) % 16];
        w[1] = next(seed) % qubits;
        do w[2] = next(seed) % qubits; while (w[2] == w[1]);
        do w[3] = next(seed) % qubits; while (w[3] == w[1] || w[3] == w[2]);
        if (w[0] == MEASURE) w[2] = (uint32_t)i;
    }
    return list;
}

static List read_list(const char *name) {
    List list = {0, 0, 0, malloc(4 * 262144)};
    long cap;
    FILE *file = fopen(name, "r");
    if (!file || fscanf(file, "convert %u %u %ld", &list.qubits, &list.cbits, &cap) != 3) exit(2);
    while (fscanf(file, "%u", list.words + list.len) == 1) list.len++;
    fclose(file);
    return list;
}

static uint32_t convert(Library *l, const List *g, uint64_t cap) {
    return l->convert(g->qubits, g->cbits, OWNER, cap, g->words, g->len, l->nodes, NODES, l->operations, 65536 * l->words, l->frame, FRAME, l->planes, PLANES, l->header, 6,
                      l->answer, 4);
}

static uint32_t report(Library *l, size_t records) {
    return l->weights(l->header, 6, l->nodes, NODES, l->operations, 65536 * l->words, l->scratch, 4 * l->header[3], l->pool, 3 * records, UINT64_MAX >> 1, l->answer, 4);
}

static uint32_t axes(Library *l, size_t records) {
    return l->axes(l->header, 6, l->nodes, NODES, l->operations, 65536 * l->words, l->rows, ROWS, l->scratch, 4 * l->header[3], l->pool, 3 * records, UINT64_MAX >> 1,
                   l->answer, 4);
}

/* Axes spread over all operations, a row of letters for each. The values are phase and work. */
static uint32_t expand(Library *l, size_t records) {
    uint32_t refused = 0;
    for (uint64_t k = 0; k < ONE_BY_ONE && k < l->header[4]; k++) {
        const uint32_t *op = l->operations + l->words * (k * l->header[4] / ONE_BY_ONE);
        refused |= l->expand(l->header, 6, l->nodes, NODES, l->rows + QUBITS * k, QUBITS, l->scratch, 4 * l->header[3], l->pool, 3 * records, OWNER, op[1],
                             UINT64_MAX >> 1, l->answer, 4);
    }
    return refused;
}

/* The least power of two of records, from 1,024 on, that serves. */
static size_t records_for(Library *l) {
    size_t records = 1024;
    while (records < 65536 && report(l, records) == NO_POOL) records *= 2;
    return records;
}

static uint32_t call(int which, Library *l, const List *lists, int many, uint64_t cap, size_t records) {
    uint32_t refused = 0;
    if (which == REPORT) return report(l, records);
    if (which == AXES_IN_ONE_WALK) return axes(l, records);
    if (which == AXES_ONE_BY_ONE) return expand(l, records);
    for (int k = 0; k < many; k++) refused |= convert(l, lists + k, cap);
    return refused;
}

static void differ(const char *name) {
    printf("%s: the answers differ\n", name);
    exit(1);
}

/* One of the calls by both libraries: the answers compared, then the times. */
static void timed(int which, const char *name, const List *lists, int many, uint64_t cap, size_t records) {
    double least[2] = {1e9, 1e9}, all = 0, enough = which == CONVERSION ? 1.0 : 0.5;
    uint32_t refused[2];
    for (int b = 0; b < 2; b++) refused[b] = call(which, both[b], lists, many, cap, records);
    if (refused[0] != refused[1]) differ(name);
    if (refused[0]) {
        if (!once) printf("%s%s: refused\n", prefixes[which], name);
        return;
    }
    if (memcmp(now.answer, before.answer, (which == AXES_ONE_BY_ONE ? 2 : 4) * sizeof *now.answer)) differ(name);
    if (memcmp(now.rows, before.rows, ROWS)) differ(name);
    if (once) return;
    for (int round = 0; round < 400 && (all < enough || round < 20); round++)
        for (int turn = 0; turn < 2; turn++) {
            int b = (round + turn) % 2;
            double start = seconds();
            call(which, both[b], lists, many, cap, records);
            double took = seconds() - start;
            all += took;
            if (took < least[b]) least[b] = took;
        }
    double ratio = least[0] / least[1];
    printf("%-10s%-48s %10.2f us %10.2f us   %.3f\n", prefixes[which], name, 1e6 * least[0], 1e6 * least[1], ratio);
    sums[which] += ratio;
    count[which]++;
}

static void workload(const char *name, const List *lists, int many, uint64_t cap) {
    uint32_t refused = 0;
    if (!strstr(name, word)) return;
    timed(CONVERSION, name, lists, many, cap, 0);
    for (int b = 0; b < 2; b++) refused |= convert(both[b], lists, cap);
    if (refused) return;
    size_t records = records_for(&now);
    if (records_for(&before) != records) differ(name);
    timed(REPORT, name, lists, many, cap, records);
    timed(AXES_IN_ONE_WALK, name, lists, many, cap, records);
    timed(AXES_ONE_BY_ONE, name, lists, many, cap, records);
}

int main(int argc, char **argv) {
    static const uint64_t caps[] = {UINT64_C(1) << 32, 3, 8};
    static const char *names[] = {"no cap", "cap 3", "cap 8"};
    char text[128];
    once = argc > 1 && !strcmp(argv[1], "--once");
    argc -= once, argv += once;
    if (argc < 4) return 2;
    now.convert = pbc_convert, now.weights = pbc_max_axis_weights, now.axes = pbc_expand_axes, now.expand = pbc_expand;
    before.convert = before_pbc_convert, before.weights = before_pbc_max_axis_weights, before.axes = before_pbc_expand_axes, before.expand = before_pbc_expand;
    now.words = (size_t)atoi(argv[1]), before.words = (size_t)atoi(argv[2]);
    word = argv[3];
    if (!once) printf("%-58s %13s %13s   now/before\n", "", "now", "before");
    for (int f = 4; f < argc; f++)
        for (int c = 0; c < 3; c++) {
            List list = read_list(argv[f]);
            const char *base = strrchr(argv[f], '/') ? strrchr(argv[f], '/') + 1 : argv[f];
            snprintf(text, sizeof text, "%s, %s", base, names[c]);
            workload(text, &list, 1, caps[c]);
            free(list.words);
        }
    static const uint32_t qubits[] = {16, 64, 256};
    static const size_t gates[] = {1000, 8000, 32000};
    for (int q = 0; q < 3; q++)
        for (int g = 0; g < 3; g++)
            for (int c = 0; c < 3; c++) {
                uint64_t seed = 2026;
                List lists[LISTS];
                for (int k = 0; k < LISTS; k++) lists[k] = random_list(qubits[q], gates[g], &seed);
                snprintf(text, sizeof text, "random, %u qubits, %zu gates, %s", qubits[q], gates[g], names[c]);
                workload(text, lists, LISTS, caps[c]);
                for (int k = 0; k < LISTS; k++) free(lists[k].words);
            }
    if (!once && count[CONVERSION])
        printf("mean of the ratios: conversions %.3f, reports %.3f, all axes %.3f, axes one by one %.3f\n", sums[CONVERSION] / count[CONVERSION],
               sums[REPORT] / count[REPORT], sums[AXES_IN_ONE_WALK] / count[AXES_IN_ONE_WALK], sums[AXES_ONE_BY_ONE] / count[AXES_ONE_BY_ONE]);
    return 0;
}
