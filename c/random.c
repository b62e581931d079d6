/* Random functions, as many as the argument says: each is allocated with and without the checker, in exactly the room
   that its result needs; the output is judged by words and in parts, then with a place damaged; and each function is
   given once more with a word damaged. Build it with -fsanitize=address. */
#include "regalloc2_c.h"
#include <stdio.h>
#include <stdlib.h>
#include <string.h>

enum { WORDS = 1 << 16, BLOCKS = 40, VREGS = 4096, COLUMN = 4096 };

static uint64_t state = 1;
static uint32_t below(uint32_t n) {
    state = state * 6364136223846793005u + 1442695040888963407u;
    return (uint32_t)(state >> 33) % n;
}

static uint32_t words[WORDS], known[VREGS];
static size_t len, known_len;
static uint32_t vregs;

/* The columns, each by its number. */
static struct {
    uint32_t words[COLUMN];
    uint32_t len;
} columns[RA2_COLUMNS_END];

static void add(int column, uint32_t word) { columns[column].words[columns[column].len++] = word; }

/* Ends the members of a column so far: those of one more instruction, block or edge. */
static void end(int column, int members) { add(column, columns[members].len); }

/* Adds a set of registers that follow one another. */
static void add_set(int column, uint32_t first, uint32_t count) {
    uint32_t set[6] = {0};
    for (uint32_t i = 0; i < count; i++)
        ra2_add(set, first + i);
    for (int i = 0; i < 6; i++)
        add(column, set[i]);
}

static void add_machine(void) {
    uint32_t scratch = below(2), slots = below(4) == 0;
    add_set(RA2_PREFERRED, 0, 6), add_set(RA2_PREFERRED, 64, 4), add_set(RA2_PREFERRED, 0, 0);
    add_set(RA2_NON_PREFERRED, 6, 2), add_set(RA2_NON_PREFERRED, 0, 0), add_set(RA2_NON_PREFERRED, 0, 0);
    add(RA2_SCRATCH, scratch ? 1 + 9 : 0), add(RA2_SCRATCH, scratch ? 1 + 73 : 0), add(RA2_SCRATCH, 0);
    if (slots)
        add(RA2_SLOTS, ra2_register(RA2_INT, 20));
    add_set(RA2_SETS, 0, 4), add_set(RA2_SETS, 64, 2);
}

static void add_operand(uint32_t vreg, uint32_t kind, uint32_t constraint) {
    uint64_t word = ra2_operand(vreg & 3, vreg >> 2, kind, kind == RA2_DEF ? RA2_LATE : RA2_EARLY, constraint);
    add(RA2_OPERANDS, (uint32_t)word), add(RA2_OPERANDS, (uint32_t)(word >> 32));
}

/* Ends an instruction, whose operands are added. Each takes two words. */
static void end_inst(uint32_t what, uint32_t set) {
    add(RA2_KINDS, ra2_kind(set, what));
    add(RA2_OPERAND_ENDS, columns[RA2_OPERANDS].len / 2);
}

static uint32_t new_vreg(void) { return ra2_vreg(below(4) == 0 ? RA2_FLOAT : RA2_INT, vregs++); }
static uint32_t any_known(void) { return known[below((uint32_t)known_len)]; }

/* An integer that is known, or RA2_NONE. */
static uint32_t known_integer(void) {
    for (size_t i = known_len; i > 0; i--)
        if ((known[i - 1] & 3) == RA2_INT && (below(3) || i == 1))
            return known[i - 1];
    return RA2_NONE;
}

/* An instruction that isn't a branch: a definition, if it is none that returns, and uses of what is known. */
static void add_inst(uint32_t what) {
    uint32_t uses = known_len ? below(4) : 0, defines = what == RA2_OP && below(4), fixed = below(4);
    for (uint32_t i = 0; i < uses; i++) {
        uint32_t vreg = any_known();
        add_operand(vreg, RA2_USE, i == 0 && fixed == 0 ? RA2_FIXED + below(4) : below(3) ? RA2_REG : RA2_ANY);
    }
    if (defines) {
        uint32_t vreg = new_vreg();
        add_operand(vreg, RA2_DEF, fixed == 1 ? RA2_FIXED + below(4) : below(4) ? RA2_REG : RA2_ANY);
        known[known_len++] = vreg;
    }
    end_inst(what, what == RA2_OP && fixed != 1 && below(6) == 0 ? 1 + below(2) : 0);
}

/* The instructions of block b, of which the last leaves it. Returns the integer that is passed on, or RA2_NONE. */
static uint32_t add_insts(uint32_t b, uint32_t last) {
    for (uint32_t i = below(5); i > 0; i--)
        add_inst(RA2_OP);
    uint32_t passed = known_integer();
    if (b % 3 && passed == RA2_NONE) {
        passed = known[known_len++] = ra2_vreg(RA2_INT, vregs++);
        add_operand(passed, RA2_DEF, RA2_REG), end_inst(RA2_OP, 0);
    }
    if (b == last)
        add_inst(RA2_RETURN);
    else
        end_inst(RA2_BRANCH, 0);
    return passed;
}

/* The edges of block b: block 3 s forks to 3 s + 1 and 3 s + 2, which go to 3 s + 3, a block with parameters. */
static void add_edges(uint32_t b, uint32_t last, uint32_t passed) {
    if (b % 3)
        add(RA2_PREDS, b - b % 3);
    else if (b)
        add(RA2_PREDS, b - 2), add(RA2_PREDS, b - 1);
    if (b % 3) {
        add(RA2_SUCCS, b - b % 3 + 3), add(RA2_ARGUMENTS, passed), end(RA2_ARGUMENT_ENDS, RA2_ARGUMENTS);
    } else if (b != last) {
        add(RA2_SUCCS, b + 1), end(RA2_ARGUMENT_ENDS, RA2_ARGUMENTS);
        add(RA2_SUCCS, b + 2), end(RA2_ARGUMENT_ENDS, RA2_ARGUMENTS);
    }
}

static void add_block(uint32_t b, uint32_t last) {
    size_t shared = known_len;
    if (b && b % 3 == 0) {
        known[known_len++] = ra2_vreg(RA2_INT, vregs++);
        add(RA2_PARAMS, known[known_len - 1]);
    }
    add_edges(b, last, add_insts(b, last));
    end(RA2_INST_ENDS, RA2_KINDS), end(RA2_PRED_ENDS, RA2_PREDS), end(RA2_SUCC_ENDS, RA2_SUCCS), end(RA2_PARAM_ENDS, RA2_PARAMS);
    if (b % 3)
        known_len = shared;
}

/* Writes the header, and the columns behind it. */
static void put_function(void) {
    uint32_t header[RA2_HEADER_WORDS] = {RA2_LAYOUT};
    header[RA2_AT_INSTS] = columns[RA2_KINDS].len, header[RA2_AT_BLOCKS] = columns[RA2_INST_ENDS].len;
    header[RA2_AT_OPERANDS] = columns[RA2_OPERANDS].len / 2, header[RA2_AT_SETS] = columns[RA2_SETS].len / 6;
    header[RA2_AT_EDGES] = columns[RA2_SUCCS].len, header[RA2_AT_PREDS] = columns[RA2_PREDS].len;
    header[RA2_AT_PARAMS] = columns[RA2_PARAMS].len, header[RA2_AT_ARGUMENTS] = columns[RA2_ARGUMENTS].len;
    header[RA2_AT_VREGS] = vregs, header[RA2_AT_LABELS] = columns[RA2_LABELS].len / 4, header[RA2_AT_SLOTS] = columns[RA2_SLOTS].len;
    header[RA2_AT_FLAGS] = below(2) ? RA2_BY_LAST_UNIT : 0, header[RA2_AT_SIZES] = ra2_sizes(0, 0, 1);
    memcpy(words, header, sizeof header);
    for (int k = 1; k < RA2_COLUMNS_END; k++)
        memcpy(words + ra2_column(header, k), columns[k].words, columns[k].len * sizeof *words);
    len = ra2_column(header, RA2_COLUMNS_END);
}

static void add_function(void) {
    uint32_t last = 3 * below(5);
    known_len = vregs = 0;
    for (int k = 0; k < RA2_COLUMNS_END; k++)
        columns[k].len = 0;
    add_machine();
    for (uint32_t b = 0; b <= last; b++)
        add_block(b, last);
    put_function();
}

typedef uint32_t call(const uint32_t *, size_t, uint32_t *, size_t, size_t *);

/* The result of a call in exactly the room that it needs. Twice at most it is made. */
static uint32_t exactly(call *made, const uint32_t *function, size_t count, uint32_t **result, size_t *needed) {
    size_t again = 0;
    uint32_t status = made(function, count, (*result = malloc(1)), 0, needed);
    if (*needed == 0)
        return status;
    free(*result), *result = malloc(*needed * sizeof **result);
    if (status != RA2_NO_ROOM || !*result)
        exit(3);
    status = made(function, count, *result, *needed, &again);
    if (again != *needed || status == RA2_NO_ROOM)
        exit(4);
    return status;
}

/* What is said of an output by words; the same has to be said of its parts. */
static uint32_t judged(const uint32_t *function, size_t count, const uint32_t *out, size_t out_len) {
    const uint32_t *moves = out + 3, *places = moves + 3 * out[2] + 1, *offsets = places + places[-1] + 1;
    uint32_t few[1];
    size_t needed = 0;
    uint32_t status = regalloc2_c_check(function, count, out, out_len);
    uint32_t parts = regalloc2_c_judge(function, count, out[0] | (uint64_t)out[1] << 32, moves, 3 * (size_t)out[2], places, places[-1], offsets,
                                       offsets[-1], few, 0, &needed);
    if (status == RA2_FAULTS ? parts != RA2_NO_ROOM || needed < 10 : parts != status || needed != 0)
        exit(5);
    return status;
}

static void tally(const char *what, const uint32_t *counts) {
    printf("%s:", what);
    for (uint32_t status = 0; status <= RA2_LAST_STATUS; status++)
        if (counts[status])
            printf(" %u with status %u", counts[status], status);
    printf("\n");
}

int main(int argc, char **argv) {
    static uint32_t allocated[32], damaged[32], wrong[32];
    uint32_t total = argc > 1 ? (uint32_t)atoi(argv[1]) : 10000;
    for (uint32_t n = 0; n < total; n++) {
        uint32_t *result = NULL, *without = NULL, *function;
        size_t needed = 0, same = 0;
        add_function();
        function = malloc(len * sizeof *function);
        memcpy(function, words, len * sizeof *function);
        uint32_t status = exactly(regalloc2_c_allocate, function, len, &result, &needed);
        allocated[status]++;
        if (exactly(regalloc2_c_run, function, len, &without, &same) != status || same != needed || memcmp(result, without, 4 * needed))
            return 6;
        if (status == RA2_OK) {
            if (judged(function, len, result, needed) != RA2_OK)
                return 7;
            const size_t places = 3 + 3 * (size_t)result[2];
            if (result[places])
                result[places + 1 + below(result[places])] = ra2_in_register(below(8));
            damaged[judged(function, len, result, needed)]++;
        }
        free(result), free(without), result = NULL;
        function[below((uint32_t)len)] = below(4) ? below(70) : (uint32_t)(state >> 32);
        wrong[exactly(regalloc2_c_allocate, function, len, &result, &needed)]++;
        free(result), free(function);
    }
    tally("functions", allocated), tally("with a place damaged", damaged), tally("with a word damaged", wrong);
    return allocated[RA2_OK] < total - total / 10;
}
