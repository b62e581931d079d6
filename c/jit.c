/* A compiler in memory for x86-64: it builds functions over 64-bit integers, has the library allocate their registers, encodes them, calls them, and
   compares what they return with an interpreter. `jit` runs gcd, fib and 200 functions at random, and prints how many differ. */
#define _DEFAULT_SOURCE
#include "regalloc2_c_tools.h"
#include <stdio.h>
#include <sys/mman.h>

enum { MOST_INSTS = 128, MOST_BLOCKS = 4, MOST_ARGUMENTS = 3, CODE_BYTES = 1 << 14 };
enum { RAX = 0, RCX = 1, RDX = 2, RSP = 4, RSI = 6, RDI = 7, R8 = 8, R9 = 9 };

enum op { ARGUMENTS, CONSTANT, ADD, SUBTRACT, MULTIPLY, REMAINDER, JUMP, JUMP_IF, RETURN };
struct inst {
    enum op op;
    uint32_t def, uses[2]; /* vregs; ARGUMENTS defines def and def + 1 */
    uint64_t value;        /* of CONSTANT */
};
struct block {
    uint32_t end; /* one past its last instruction */
    uint32_t params[MOST_ARGUMENTS], num_params;
    uint32_t succs[2], arguments[2][MOST_ARGUMENTS], num_succs; /* JUMP_IF goes to the first one unless the value is 0 */
};
struct program {
    struct inst insts[MOST_INSTS];
    struct block blocks[MOST_BLOCKS];
    uint32_t num_insts, num_blocks, num_vregs;
};

/* Adds an instruction to the last block. Returns the vreg that it defines. */
static uint32_t add(struct program *p, enum op op, uint32_t a, uint32_t b, uint64_t value) {
    struct inst *const inst = &p->insts[p->num_insts++];
    inst->op = op, inst->uses[0] = a, inst->uses[1] = b, inst->value = value, inst->def = p->num_vregs;
    p->num_vregs += op == ARGUMENTS ? 2 : op < JUMP;
    p->blocks[p->num_blocks - 1].end = p->num_insts;
    return inst->def;
}

/* Begins a block. Returns the first of its parameters, which are consecutive. */
static uint32_t begin(struct program *p, uint32_t num_params) {
    struct block *const block = &p->blocks[p->num_blocks++];
    memset(block, 0, sizeof *block);
    for (; block->num_params < num_params; block->num_params++)
        block->params[block->num_params] = p->num_vregs++;
    return p->num_vregs - num_params;
}

static void go(struct program *p, uint32_t succ, uint32_t a, uint32_t b, uint32_t c) {
    struct block *const block = &p->blocks[p->num_blocks - 1];
    uint32_t *const arguments = block->arguments[block->num_succs];
    block->succs[block->num_succs++] = succ;
    arguments[0] = a, arguments[1] = b, arguments[2] = c;
}

/* while (y) (x, y) = (y, x % y); return x; */
static void gcd(struct program *p) {
    memset(p, 0, sizeof *p);
    begin(p, 0);
    const uint32_t a = add(p, ARGUMENTS, 0, 0, 0);
    add(p, JUMP, 0, 0, 0), go(p, 1, a, a + 1, 0);
    const uint32_t x = begin(p, 2), y = x + 1;
    add(p, JUMP_IF, y, 0, 0), go(p, 2, 0, 0, 0), go(p, 3, 0, 0, 0);
    begin(p, 0);
    const uint32_t r = add(p, REMAINDER, x, y, 0);
    add(p, JUMP, 0, 0, 0), go(p, 1, y, r, 0);
    begin(p, 0);
    add(p, RETURN, x, 0, 0);
}

/* for (x = 0, y = 1; i; i--) (x, y) = (y, x + y); return x; */
static void fib(struct program *p) {
    memset(p, 0, sizeof *p);
    begin(p, 0);
    const uint32_t n = add(p, ARGUMENTS, 0, 0, 0), zero = add(p, CONSTANT, 0, 0, 0), first = add(p, CONSTANT, 0, 0, 1);
    add(p, JUMP, 0, 0, 0), go(p, 1, n, zero, first);
    const uint32_t i = begin(p, 3), x = i + 1, y = i + 2;
    add(p, JUMP_IF, i, 0, 0), go(p, 2, 0, 0, 0), go(p, 3, 0, 0, 0);
    begin(p, 0);
    const uint32_t sum = add(p, ADD, x, y, 0), one = add(p, CONSTANT, 0, 0, 1), j = add(p, SUBTRACT, i, one, 0);
    add(p, JUMP, 0, 0, 0), go(p, 1, j, y, sum);
    begin(p, 0);
    add(p, RETURN, x, 0, 0);
}

/* Instructions at random over all values so far, of which the sum returns: more values at once than there are registers. */
static void any(struct program *p, uint32_t seed) {
    uint64_t state = 2 * seed + 1;
    memset(p, 0, sizeof *p);
    begin(p, 0);
    add(p, ARGUMENTS, 0, 0, 0);
    while (p->num_insts < 40) {
        state = state * 6364136223846793005u + 1442695040888963407u;
        const uint32_t at = (uint32_t)(state >> 33), a = at % p->num_vregs, b = at / 64 % p->num_vregs;
        if (at / 4096 % 5 == 4)
            add(p, REMAINDER, a, add(p, CONSTANT, 0, 0, at | 1), 0);
        else
            add(p, (enum op)(CONSTANT + at / 4096 % 5), a, b, state);
    }
    uint32_t sum = 0;
    for (uint32_t v = 1, count = p->num_vregs; v < count; v++)
        sum = add(p, ADD, sum, v, 0);
    add(p, RETURN, sum, 0, 0);
}

static uint64_t interpret(const struct program *p, uint64_t first, uint64_t second) {
    uint64_t values[2 * MOST_INSTS] = {0};
    for (uint32_t at = 0, b = 0;;) {
        const struct inst *const inst = &p->insts[at++];
        const struct block *const block = &p->blocks[b];
        const uint64_t x = values[inst->uses[0]], y = values[inst->uses[1]];
        const uint32_t edge = inst->op == JUMP_IF && x == 0;
        uint64_t passed[MOST_ARGUMENTS];
        switch (inst->op) {
        case ARGUMENTS: values[inst->def] = first, values[inst->def + 1] = second; break;
        case CONSTANT: values[inst->def] = inst->value; break;
        case ADD: values[inst->def] = x + y; break;
        case SUBTRACT: values[inst->def] = x - y; break;
        case MULTIPLY: values[inst->def] = x * y; break;
        case REMAINDER: values[inst->def] = x % y; break;
        case RETURN: return x;
        case JUMP: case JUMP_IF:
            b = block->succs[edge], at = p->blocks[b - 1].end;
            for (uint32_t k = 0; k < p->blocks[b].num_params; k++)
                passed[k] = values[block->arguments[edge][k]];
            for (uint32_t k = 0; k < p->blocks[b].num_params; k++)
                values[p->blocks[b].params[k]] = passed[k];
        }
    }
}

/* The operands of an instruction. Arithmetic replaces its first operand, and may take the second from memory; a division wants RAX and RDX. */
static size_t operands_of(const struct inst *inst, uint64_t *to) {
    const uint32_t def = ra2_vreg(RA2_INT, inst->def), a = ra2_vreg(RA2_INT, inst->uses[0]), b = ra2_vreg(RA2_INT, inst->uses[1]);
    switch (inst->op) {
    case ARGUMENTS:
        return to[0] = ra2_def(def, RA2_FIXED + RDI), to[1] = ra2_def(ra2_vreg(RA2_INT, inst->def + 1), RA2_FIXED + RSI), 2;
    case CONSTANT: return to[0] = ra2_def(def, RA2_REG), 1;
    case ADD: case SUBTRACT: case MULTIPLY:
        return to[0] = ra2_def(def, RA2_REUSE + 1), to[1] = ra2_use(a, RA2_REG), to[2] = ra2_use(b, RA2_ANY), 3;
    case REMAINDER:
        return to[0] = ra2_def(def, RA2_FIXED + RDX), to[1] = ra2_use(a, RA2_FIXED + RAX), to[2] = ra2_late_use(b, RA2_REG), 3;
    case JUMP_IF: return to[0] = ra2_use(a, RA2_REG), 1;
    case RETURN: return to[0] = ra2_use(a, RA2_FIXED + RAX), 1;
    default: return 0;
    }
}

static int build(const struct program *p, struct ra2_builder *b, const uint32_t **words, size_t *len) {
    static const uint32_t registers[] = {RAX, RCX, RDX, RSI, RDI, R8, R9};
    uint32_t clobbers[6] = {0}, params[MOST_ARGUMENTS], at = 0;
    ra2_again(b);
    for (size_t k = 0; k < sizeof registers / sizeof *registers; k++)
        ra2_add_preferred(b, ra2_register(RA2_INT, registers[k]));
    ra2_add(clobbers, ra2_register(RA2_INT, RAX));
    const uint32_t divides = ra2_add_set(b, clobbers);
    for (const struct block *block = p->blocks; block < p->blocks + p->num_blocks; block++) {
        for (uint32_t k = 0; k < block->num_params; k++)
            params[k] = ra2_vreg(RA2_INT, block->params[k]);
        ra2_add_block(b, params, block->num_params);
        for (; at < block->end; at++) {
            uint64_t operands[3];
            const enum op op = p->insts[at].op;
            const uint32_t what = op == RETURN ? RA2_RETURN : op >= JUMP ? RA2_BRANCH : RA2_OP;
            ra2_add_inst(b, ra2_kind(op == REMAINDER ? divides : 0, what), operands, operands_of(&p->insts[at], operands));
        }
        for (uint32_t s = 0; s < block->num_succs; s++) {
            const uint32_t count = p->blocks[block->succs[s]].num_params;
            for (uint32_t k = 0; k < count; k++)
                params[k] = ra2_vreg(RA2_INT, block->arguments[s][k]);
            ra2_add_edge(b, block->succs[s], params, count);
        }
    }
    return ra2_finish(b, words, len);
}

/* Code, the starts of blocks, and the jumps whose distances are missing. */
struct code {
    uint8_t *bytes;
    size_t len, starts[MOST_BLOCKS], jumps[2 * MOST_BLOCKS], num_jumps;
    uint32_t targets[2 * MOST_BLOCKS], frame;
};

static void byte(struct code *c, uint32_t value) {
    if (c->len == CODE_BYTES)
        abort();
    c->bytes[c->len++] = (uint8_t)value;
}
static void number(struct code *c, uint64_t value, int bytes) {
    for (int k = 0; k < bytes; k++)
        byte(c, value >> 8 * k & 255);
}

/* An operation of 64 bits, of one byte or two, on a register and a place: a register, or a slot in the frame. */
static void operate(struct code *c, uint32_t op, uint32_t reg, uint32_t place) {
    const bool is_slot = ra2_place_kind(place) == RA2_PLACE_SLOT;
    const uint32_t other = is_slot ? (uint32_t)RSP : ra2_number_of_register(ra2_place_number(place));
    byte(c, 0x48 | reg >> 3 << 2 | other >> 3);
    if (op > 255)
        byte(c, op >> 8);
    byte(c, op & 255);
    byte(c, (is_slot ? 0x80u : 0xc0u) | (reg & 7) << 3 | (other & 7));
    if (is_slot)
        byte(c, 0x24), number(c, 8 * ra2_place_number(place), 4);
}

static uint32_t register_of(uint32_t place) { return ra2_number_of_register(ra2_place_number(place)); }

static void move(struct code *c, uint32_t from, uint32_t to) {
    if (ra2_place_kind(to) == RA2_PLACE_SLOT)
        operate(c, 0x89, register_of(from), to);
    else
        operate(c, 0x8b, register_of(to), from);
}

static void jump(struct code *c, uint32_t target) {
    c->jumps[c->num_jumps] = c->len;
    c->targets[c->num_jumps++] = target;
    number(c, 0, 4);
}

static void encode(struct code *c, const struct inst *inst, const struct block *block, const uint32_t *places) {
    switch (inst->op) {
    case ARGUMENTS: break;
    case CONSTANT: byte(c, 0x48 | register_of(places[0]) >> 3), byte(c, 0xb8 | (register_of(places[0]) & 7)), number(c, inst->value, 8); break;
    case ADD: operate(c, 0x03, register_of(places[0]), places[2]); break;
    case SUBTRACT: operate(c, 0x2b, register_of(places[0]), places[2]); break;
    case MULTIPLY: operate(c, 0x0faf, register_of(places[0]), places[2]); break;
    case REMAINDER: operate(c, 0x31, RDX, ra2_in_register(RDX)), operate(c, 0xf7, 6, places[2]); break;
    case JUMP_IF: operate(c, 0x85, register_of(places[0]), places[0]), byte(c, 0x0f), byte(c, 0x85), jump(c, block->succs[0]); break;
    case RETURN: number(c, 0xc48148, 3), number(c, c->frame, 4), byte(c, 0xc3); break;
    case JUMP: break;
    }
    if (inst->op == JUMP || inst->op == JUMP_IF)
        byte(c, 0xe9), jump(c, block->succs[block->num_succs - 1]);
}

/* Encodes an allocated program: a frame, each block's listing, and the distances of jumps. */
static void assemble(struct code *c, const struct program *p, const uint32_t *words, const struct ra2_output *output) {
    c->len = c->num_jumps = 0;
    c->frame = (uint32_t)(8 * output->num_slots);
    number(c, 0xec8148, 3), number(c, c->frame, 4);
    for (uint32_t b = 0; b < p->num_blocks; b++) {
        uint32_t first, end;
        ra2_block_insts(words, b, &first, &end);
        c->starts[b] = c->len;
        struct ra2_listing listing = ra2_list_insts(output, first, end);
        for (struct ra2_item item; ra2_next(&listing, &item);)
            if (item.is_move)
                move(c, item.from, item.to);
            else
                encode(c, &p->insts[item.inst], &p->blocks[b], item.places);
    }
    const size_t len = c->len;
    for (size_t k = 0; k < c->num_jumps; k++)
        c->len = c->jumps[k], number(c, c->starts[c->targets[k]] - (c->jumps[k] + 4), 4);
    c->len = len;
}

/* Compiles a program, and compares a few calls of it. Returns how many differ, or -1. */
static int differences(const struct program *p, struct code *c, struct ra2_builder *b, struct ra2_result *result) {
    static const uint64_t arguments[][2] = {{0, 0}, {1, 0}, {48, 18}, {90, 7}, {1071, 462}};
    union { void *bytes; uint64_t (*call)(uint64_t, uint64_t); } code;
    struct ra2_output output;
    const uint32_t *words;
    size_t len;
    char text[RA2_TEXT_ROOM];
    int wrong = 0, error = build(p, b, &words, &len);
    const uint32_t status = error ? (uint32_t)RA2_OK : ra2_run(words, len, result);
    if (error || status || !ra2_read_output(&output, result->words, result->len)) {
        printf("no code: %s\n", error ? ra2_build_text(error) : ra2_status_text(status, text, sizeof text));
        return -1;
    }
    if (mprotect(c->bytes, CODE_BYTES, PROT_READ | PROT_WRITE))
        return -1;
    assemble(c, p, words, &output);
    if (mprotect(c->bytes, CODE_BYTES, PROT_READ | PROT_EXEC))
        return -1;
    code.bytes = c->bytes;
    for (size_t k = 0; k < sizeof arguments / sizeof *arguments; k++)
        wrong += code.call(arguments[k][0], arguments[k][1]) != interpret(p, arguments[k][0], arguments[k][1]);
    return wrong;
}

int main(void) {
    static struct program program;
    static struct code code;
    struct ra2_builder builder;
    struct ra2_result result = {NULL, 0, 0};
    int wrong = 0, made = 0;
    void *const bytes = mmap(NULL, CODE_BYTES, PROT_READ | PROT_WRITE, MAP_PRIVATE | MAP_ANONYMOUS, -1, 0);
    if (bytes == MAP_FAILED)
        return 2;
    code.bytes = (uint8_t *)bytes;
    ra2_begin(&builder, NULL, 0);
    for (uint32_t seed = 0; seed < 202 && made >= 0; seed++) {
        if (seed == 0)
            gcd(&program);
        else if (seed == 1)
            fib(&program);
        else
            any(&program, seed);
        made = differences(&program, &code, &builder, &result);
        wrong += made;
    }
    printf("%d differences in 1,010 calls\n", wrong);
    ra2_free(&builder);
    ra2_free_result(&result);
    munmap(bytes, CODE_BYTES);
    return wrong != 0;
}
