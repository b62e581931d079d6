/* Each status of the C library once, with the words of its result, from ten threads that call at once. It brings its
   own memory, which it can refuse. */
#include "regalloc2_c.h"
#include <pthread.h>
#include <stdio.h>
#include <stdlib.h>
#include <string.h>

enum { ROOM = 256, THREADS = 10, ROUNDS = 200 };

/* How many more times this thread is given memory. */
static _Thread_local size_t requests = SIZE_MAX;

static struct rattle_tried given(uint8_t *p) {
    static uint8_t nothing;
    return (struct rattle_tried){p != NULL, p ? p : &nothing};
}

static bool is_refused(void) { return requests == 0 || (requests != SIZE_MAX && --requests == 0); }

struct rattle_tried rattle_alloc(size_t size, size_t align) {
    (void)align;
    return given(is_refused() ? NULL : malloc(size + 1));
}

struct rattle_tried rattle_realloc(uint8_t *p, size_t kept, size_t size, size_t align) {
    (void)kept, (void)align;
    return given(is_refused() ? NULL : realloc(p, size + 1));
}

void rattle_dealloc(uint8_t *p) { free(p); }

#define LOW(n) (uint32_t)((n) & 0xffffffff)
#define HIGH(n) (uint32_t)((n) >> 32)
#define DEF 85899345920ull
#define USE 103079215104ull

#define NONE 0, 0, 0, 0, 0, 0 /* a set without registers */
/* p0i and p1i, and no other registers */
#define MACHINE 3, 0, 0, 0, 0, 0, NONE, NONE, NONE, NONE, NONE, 0, 0, 0

/* block0 defines v0 and goes to block1(v0); block1(v1) reads v1 and returns */
static const uint32_t good[] = {
    RA2_LAYOUT, 0, 3, 2, 2, 0, 1, 1, 1, 1, 2, 0, 0, 0, 0, MACHINE, /* the header and the machine */
    RA2_OP, RA2_BRANCH, RA2_RETURN,                                /* instructions */
    1, 1, 2, LOW(DEF), HIGH(DEF), LOW(USE + 1), HIGH(USE + 1),     /* operands */
    2, 3, 0, 1, 1, 1, 0, 1,                                        /* ends of instructions, predecessors, successors, parameters */
    0, 1, 4, 1, 0,                                                 /* these, the edge's arguments' end and its argument */
};
enum { LEN = sizeof good / sizeof *good };

/* The word k of a column of that function, and a change that is none. */
#define AT(column, k) (ra2_column(good, column) + (k))
#define SAME RA2_AT_LAYOUT, RA2_LAYOUT

/* block0 goes to block1, which defines v0, and to block2, which reads it */
static const uint32_t forked[] = {
    RA2_LAYOUT, 0, 4, 3, 2, 0, 2, 2, 0, 0, 1, 0, 0, 0, 0, MACHINE,
    RA2_BRANCH, RA2_OP, RA2_RETURN, RA2_RETURN,
    0, 1, 1, 2, LOW(DEF), HIGH(DEF), LOW(USE), HIGH(USE),
    1, 3, 4, 0, 1, 2, 2, 2, 2, 0, 0, 0,
    0, 0, 1, 2, 0, 0,
};

struct seen {
    uint32_t status;
    size_t needed;
    uint32_t words[ROOM];
};

typedef uint32_t call(const uint32_t *, size_t, uint32_t *, size_t, size_t *);

/* The result of a call for the function in which one word is another. */
static struct seen made(call *made_by, size_t at, uint32_t word, size_t len, size_t room) {
    uint32_t function[LEN];
    struct seen s = {0};
    memcpy(function, good, sizeof good);
    function[at] = word;
    s.status = made_by(function, len, s.words, room, &s.needed);
    return s;
}

static struct seen of_forked(call *made_by) {
    struct seen s = {0};
    s.status = made_by(forked, sizeof forked / sizeof *forked, s.words, ROOM, &s.needed);
    return s;
}

#define GOOD "regs p0i..p1i\nblock0:\n  op: Def: v0i reg\n  branch block1(v0i)\nblock1(v1i):\n  ret: Use: v1i reg\n"

/* The same function as a text, whatever the words are. */
static uint32_t allocate_good_text(const uint32_t *words, size_t len, uint32_t *result, size_t room, size_t *needed) {
    (void)words, (void)len;
    return regalloc2_c_allocate_text((const uint8_t *)GOOD, sizeof GOOD - 1, result, room, needed);
}

static struct seen text(const char *lines) {
    struct seen s = {0};
    s.status = regalloc2_c_allocate_text((const uint8_t *)lines, strlen(lines), s.words, ROOM, &s.needed);
    return s;
}

static struct seen json(const char *value) {
    struct seen s = {0};
    s.status = regalloc2_c_allocate_json((const uint8_t *)value, strlen(value), s.words, ROOM, &s.needed);
    return s;
}

/* Judges an output of the function that has no place. */
static uint32_t judge_no_places(const uint32_t *words, size_t len, uint32_t *result, size_t room, size_t *needed) {
    static const uint32_t offsets[] = {0, 0, 0};
    return regalloc2_c_judge(words, len, 0, NULL, 0, NULL, 0, offsets, 3, result, room, needed);
}

/* What is said of the output in which one word is another, of a function in which one word is another: by words and
   in parts. */
static struct seen judged(size_t at, uint32_t word, size_t changed, uint32_t to, uint32_t *by_words) {
    uint32_t function[LEN];
    struct seen out = made(regalloc2_c_allocate, SAME, LEN, ROOM), s = {0};
    memcpy(function, good, sizeof good);
    function[at] = word;
    if (changed < out.needed)
        out.words[changed] = to;
    const uint32_t *moves = out.words + 3, *places = moves + 3 * out.words[2] + 1, *offsets = places + places[-1] + 1;
    *by_words = regalloc2_c_check(function, LEN, out.words, out.needed);
    s.status = regalloc2_c_judge(function, LEN, out.words[0], moves, 3 * out.words[2], places, places[-1], offsets, offsets[-1],
                                 s.words, ROOM, &s.needed);
    return s;
}

/* Whether a result isn't the one that is wanted, which it says. */
static int differs(const char *what, struct seen s, uint32_t status, size_t count, const uint32_t *words) {
    int wrong = s.status != status || s.needed != count || (words && memcmp(s.words, words, count * sizeof *words));
    if (wrong) {
        printf("%s: status %u, and not %u; %zu words, and not %zu:", what, s.status, status, s.needed, count);
        for (size_t i = 0; i < s.needed && i < ROOM; i++)
            printf(" %u", s.words[i]);
        printf("\n");
    }
    return wrong;
}

static int differ(const char *what, size_t at, uint32_t word, size_t changed, uint32_t to, uint32_t status, size_t count, const uint32_t *words) {
    uint32_t by_words;
    struct seen s = judged(at, word, changed, to, &by_words);
    if (by_words != status)
        printf("%s: by words status %u, and not %u\n", what, by_words, status);
    return differs(what, s, status, count, words) + (by_words != status);
}

#define WORDS(...) sizeof((uint32_t[]){__VA_ARGS__}) / 4, (uint32_t[]){__VA_ARGS__}

static int wrong_allocations(void) {
    struct seen fine = made(regalloc2_c_allocate, SAME, LEN, ROOM);
    return differs("the function", fine, RA2_OK, fine.needed, NULL)
        + differs("without the checker", made(regalloc2_c_run, SAME, LEN, ROOM), RA2_OK, fine.needed, fine.words)
        + differs("a float register for integers", made(regalloc2_c_allocate, AT(RA2_PREFERRED, 2), 1, LEN, ROOM), RA2_BAD_MACHINE,
                  WORDS(RA2_MISFIT_OTHER_CLASS, 0, 64))
        + differs("no room", made(regalloc2_c_allocate, SAME, LEN, 0), RA2_NO_ROOM, fine.needed, NULL)
        + differs("a word too little room", made(regalloc2_c_allocate, SAME, LEN, fine.needed - 1), RA2_NO_ROOM, fine.needed, NULL)
        + differs("just enough room", made(regalloc2_c_allocate, SAME, LEN, fine.needed), RA2_OK, fine.needed, fine.words)
        + differs("no room for an error", made(regalloc2_c_allocate, RA2_AT_ENTRY, 1, LEN, 3), RA2_NO_ROOM, 4, NULL)
        + differs("another entry", made(regalloc2_c_allocate, RA2_AT_ENTRY, 1, LEN, ROOM), RA2_BAD_BLOCK, WORDS(1, RA2_NONE, RA2_NONE, RA2_NONE))
        + differs("a path that reads first", of_forked(regalloc2_c_run), RA2_READ_BEFORE_WRITTEN, 0, NULL)
        + differs("the same with the checker", of_forked(regalloc2_c_allocate), RA2_FAULTS,
                  WORDS(1, RA2_FAULT_NO_VALUE, 3, 0, LOW(USE), HIGH(USE), ra2_in_register(1), 0, 0, 0))
        + differs("the text", text(GOOD), RA2_OK, fine.needed, NULL)
        + differs("a line of the text", text("regs p0i..p1i\nblock0:\n  op: Dof: v0i reg\n"), RA2_BAD_TEXT, WORDS(3, 7))
        + differs("bytes that aren't UTF-8", text("regs \xff"), RA2_UNREADABLE, 0, NULL)
        + differs("no JSON", json("["), RA2_UNREADABLE, 0, NULL) + differs("JSON of another shape", json("{}"), RA2_UNREADABLE, 0, NULL);
}

/* Words that aren't a header and its columns, and numbers of functions that are wrong. RA2_BAD_FUNCTION + 6 comes of
   no call: where JSON has another shape, it is RA2_UNREADABLE. */
static int wrong_words(void) {
    static const uint32_t none = RA2_NONE;
    const struct {
        const char *what;
        size_t at;
        uint32_t word, status;
    } changes[] = {
        {"another layout", RA2_AT_LAYOUT, 1, RA2_UNREADABLE},
        {"other flags", RA2_AT_FLAGS, 4, RA2_UNREADABLE},
        {"four sizes", RA2_AT_SIZES, 1 << 24, RA2_UNREADABLE},
        {"too many operands", RA2_AT_OPERANDS, none, RA2_UNREADABLE},
        {"ends that fall", AT(RA2_OPERAND_ENDS, 0), 2, RA2_BAD_FUNCTION_LENGTHS},
        {"an operand left over", AT(RA2_OPERAND_ENDS, 2), 1, RA2_BAD_FUNCTION_LENGTHS},
        {"an argument left over", AT(RA2_ARGUMENT_ENDS, 0), 0, RA2_BAD_FUNCTION_LENGTHS},
        {"no entry", RA2_AT_ENTRY, 2, RA2_BAD_FUNCTION_INDEX},
        {"no predecessor", AT(RA2_PREDS, 0), 2, RA2_BAD_FUNCTION_INDEX},
        {"no set", AT(RA2_KINDS, 0), ra2_kind(1, RA2_OP), RA2_BAD_FUNCTION_INDEX},
        {"no kind", AT(RA2_KINDS, 0), 3, RA2_BAD_FUNCTION_BITS},
        {"no operand", AT(RA2_OPERANDS, 0), none, RA2_BAD_FUNCTION_BITS},
        {"no parameter", AT(RA2_PARAMS, 0), none, RA2_BAD_FUNCTION_BITS},
        {"no scratch register", AT(RA2_SCRATCH, 0), 193, RA2_BAD_FUNCTION_BITS},
        {"a slot too large", RA2_AT_SIZES, ra2_sizes(25, 0, 0), RA2_BAD_FUNCTION_LIMIT},
        {"too many vregs", RA2_AT_VREGS, 1 << 30, RA2_BAD_FUNCTION_LIMIT},
    };
    int wrong = differs("no words", made(regalloc2_c_allocate, SAME, 0, ROOM), RA2_UNREADABLE, 0, NULL)
        + differs("a word less", made(regalloc2_c_allocate, SAME, LEN - 1, ROOM), RA2_UNREADABLE, 0, NULL)
        + differs("another count", made(regalloc2_c_run, RA2_AT_LABELS, 1, LEN, ROOM), RA2_UNREADABLE, 0, NULL);
    for (size_t k = 0; k < sizeof changes / sizeof *changes; k++)
        wrong += differs(changes[k].what, made(k % 2 ? regalloc2_c_run : regalloc2_c_allocate, changes[k].at, changes[k].word, LEN, ROOM),
                         changes[k].status, 0, NULL);
    return wrong;
}

/* Null pointers for memory of length 0. */
static int wrong_nulls(void) {
    struct seen s = {.needed = 1};
    uint8_t byte;
    int wrong = regalloc2_c_status_text(RA2_OK, NULL, 0) != regalloc2_c_status_text(RA2_OK, &byte, 0)
        || regalloc2_c_fault_text(1, NULL, 0) != regalloc2_c_fault_text(1, &byte, 0) || regalloc2_c_check(NULL, 0, NULL, 0) != RA2_UNREADABLE
        || regalloc2_c_check(good, LEN, NULL, 0) != RA2_UNREADABLE;
    if (wrong)
        printf("texts or check with null pointers\n");
    s.status = regalloc2_c_allocate(NULL, 0, NULL, 0, &s.needed), wrong += differs("allocate: null", s, RA2_UNREADABLE, 0, NULL);
    s.status = regalloc2_c_run(NULL, 0, NULL, 0, &s.needed), wrong += differs("run: null", s, RA2_UNREADABLE, 0, NULL);
    s.status = regalloc2_c_run(good, LEN, NULL, 0, &s.needed), wrong += differs("run: no room", s, RA2_NO_ROOM, s.needed, NULL);
    s.status = regalloc2_c_allocate_json(NULL, 0, NULL, 0, &s.needed), wrong += differs("JSON: null", s, RA2_UNREADABLE, 0, NULL);
    s.status = regalloc2_c_allocate_text(NULL, 0, NULL, 0, &s.needed), wrong += differs("text: null", s, RA2_BAD_FUNCTION_INDEX, 0, NULL);
    s.status = regalloc2_c_judge(NULL, 0, 0, NULL, 0, NULL, 0, NULL, 0, NULL, 0, &s.needed);
    wrong += differs("judge: null", s, RA2_UNREADABLE, 0, NULL);
    s.status = regalloc2_c_judge(good, LEN, 0, NULL, 0, NULL, 0, NULL, 0, s.words, ROOM, &s.needed);
    return wrong + differs("no output", s, RA2_FAULTS, WORDS(1, RA2_FAULT_ORDER, RA2_NONE, RA2_NONE, 0, 0, 0, 0, 0, 0));
}

#define REFUSED(status, lines, ...) differs(lines, text(lines), status, WORDS(__VA_ARGS__))

/* All but 8, which 2^32 operands come to. A header can't count them, and as JSON or text they take more than 8
   gigabytes. 11 is memory's. */
static int wrong_refusals(void) {
    return REFUSED(RA2_CRITICAL_EDGE, "block0:\n  branch block1, block2\nblock1:\n  branch block2\nblock2:\n  ret\n", 0, 2, RA2_NONE, RA2_NONE)
        + REFUSED(RA2_NOT_SSA, "block0:\n  op: Def: v0i reg\n  ret: Use: v1i reg\n", RA2_NONE, RA2_NONE, 1, ra2_vreg(RA2_INT, 1))
        + REFUSED(RA2_BAD_BLOCK, "block0:\n  ret\n  ret\n", 0, RA2_NONE, RA2_NONE, RA2_NONE)
        + REFUSED(RA2_BAD_BRANCH, "block0:\n  branch block1\nblock1(v0i):\n  ret\n", RA2_NONE, RA2_NONE, 0, RA2_NONE)
        + REFUSED(RA2_ENTRY_HAS_PARAMS, "block0(v0i):\n  ret\n", RA2_NONE, RA2_NONE, RA2_NONE, RA2_NONE)
        + REFUSED(RA2_BRANCH_HAS_OPERANDS, "block0:\n  op: Def: v0i reg\n  branch block0: Use: v0i reg\n", RA2_NONE, RA2_NONE, 1, RA2_NONE)
        + REFUSED(RA2_TOO_MANY_LIVE_REGISTERS, "regs p0i\nblock0:\n  op: Def: v0i reg, Def: v1i reg\n  ret\n", RA2_NONE, RA2_NONE, RA2_NONE, RA2_NONE)
        + REFUSED(RA2_UNSUPPORTED, "block0:\n  op: Def: v0i reuse(3)\n  ret\n", RA2_NONE, RA2_NONE, 0, RA2_NONE)
        + REFUSED(RA2_TOO_MANY_SLOTS, "sizes int 16777216\nblock0:\n  op: Def: v0i stack, Def: v1i stack\n  ret\n", RA2_NONE, RA2_NONE, RA2_NONE,
                  RA2_NONE)
        + differs("slots too large", made(regalloc2_c_run, RA2_AT_SIZES, ra2_sizes(24, 0, 0), LEN, ROOM), RA2_TOO_MANY_SLOTS,
                  WORDS(RA2_NONE, RA2_NONE, RA2_NONE, RA2_NONE));
}

/* Refuses memory from the first request on, then from the second one, and so on, until a call needs no more. It has to be said by `status` once,
   which is RA2_BAD_FUNCTION_MEMORY where a text's numbers are read. */
static int wrong_memory(call *made_by, uint32_t status) {
    struct seen fine = made(made_by, SAME, LEN, ROOM), s;
    size_t times = 0;
    int wrong = 0;
    bool said = false;
    do {
        requests = ++times;
        s = made(made_by, SAME, LEN, ROOM);
        requests = SIZE_MAX;
        said |= s.status == status;
        wrong += s.status == RA2_NO_MEMORY || s.status == status ? s.needed != 0
            : s.status == RA2_REFUSED_MEMORY                       ? s.needed != 4 || s.words[2] != RA2_NONE
                                                                 : s.status != fine.status;
    } while (s.status != fine.status && wrong == 0);
    if (wrong || !said || times < 10)
        printf("refused memory: status %u after %zu requests\n", s.status, times);
    return wrong + !said + (times < 10) + differs("enough memory", s, fine.status, fine.needed, fine.words);
}

static int wrong_judgements(void) {
    struct seen fine = made(regalloc2_c_allocate, SAME, LEN, ROOM);
    size_t places = 3 + 3 * fine.words[2];
    return differ("the output", SAME, ROOM, 0, RA2_OK, 0, NULL)
        + differ("a place that is missing", SAME, places + 1, 0, RA2_FAULTS,
                 WORDS(2, RA2_FAULT_MISSING, 0, 0, LOW(DEF), HIGH(DEF), 0, 0, 0, 0,
                       RA2_FAULT_NO_VALUE, 2, 0, LOW(USE + 1), HIGH(USE + 1), fine.words[places + 2], 0, 0, 0))
        + differs("no places", made(judge_no_places, SAME, LEN, ROOM), RA2_FAULTS,
                  WORDS(2, RA2_FAULT_MISSING, 0, 0, LOW(DEF), HIGH(DEF), 0, 0, 0, 0,
                        RA2_FAULT_MISSING, 2, 0, LOW(USE + 1), HIGH(USE + 1), 0, 0, 0, 0))
        + differ("a place of no kind", SAME, places + 1, 0xffffffff, RA2_BAD_OUTPUT, 0, NULL)
        + differ("a block without an end", AT(RA2_INST_ENDS, 0), 1, ROOM, 0, RA2_NOT_FRAMED, 0, NULL)
        + differ("a frame of no units", SAME, 0, 0, RA2_FAULTS, 10, NULL);
}

/* The texts of statuses and faults by their names, from the tests that docs/SEMANTICS.md lists. */
struct named {
    uint32_t number;
    const char *text;
};
static const struct named causes[] = {
    {RA2_CRITICAL_EDGE, "an edge is critical (its block has several successors, and the successor several incoming edges, counting the start)"},
    {RA2_NOT_SSA, "a vreg is defined twice, isn't below the count of vregs, or is used without an earlier definition"},
    {RA2_BAD_BLOCK, ("a block doesn't exist, has a wrong instruction range, wrong predecessors or wrong terminators, "
                     "or is the entry but not block 0")},
    {RA2_BAD_BRANCH, "a branch passes arguments that don't fit the parameters"},
    {RA2_ENTRY_HAS_PARAMS, "the entry has parameters"},
    {RA2_BRANCH_HAS_OPERANDS, "a branch with operands leads to a block with several incoming edges, counting the start"},
    {RA2_TOO_MANY_LIVE_REGISTERS, "an instruction needs more registers than there are"},
    {RA2_TOO_MANY_OPERANDS, "there are 2^32 operands or more"},
    {RA2_UNSUPPORTED, ("an operand isn't supported: a limit, an unsound reuse, a definition or late use fixed to a clobber, "
                       "or a branch's definition in any register or by a reuse")},
    {RA2_TOO_MANY_SLOTS, "spill slots would take more than 2^24 units"},
    {RA2_REFUSED_MEMORY, "out of memory"},
    {RA2_BAD_FUNCTION_LENGTHS, "bad function: lists by block or by class have different lengths"},
    {RA2_BAD_FUNCTION_INDEX, "bad function: a block, a range or a label is out of range"},
    {RA2_BAD_FUNCTION_BITS, "bad function: a word names nothing"},
    {RA2_BAD_FUNCTION_LIMIT, "bad function: a limit is passed"},
    {RA2_BAD_FUNCTION_MEMORY, "bad function: out of memory"},
};
static const struct named faults[] = {
    {RA2_FAULT_MISSING, "an operand has no place"},
    {RA2_FAULT_NO_VALUE, "the place doesn't hold a value on every path"},
    {RA2_FAULT_CONFLICTING_VALUES, "the place holds values that conflict"},
    {RA2_FAULT_OTHER_VALUES, "the place holds the values of other vregs"},
    {RA2_FAULT_NO_SUCH_OPERAND, "a reuse names no operand"},
    {RA2_FAULT_NOT_REGISTER, "the place is no register"},
    {RA2_FAULT_NOT_FIXED_REGISTER, "the place isn't the fixed register"},
    {RA2_FAULT_NOT_REUSED, "the place isn't that of the reused operand"},
    {RA2_FAULT_NOT_STACK, "the place isn't on the stack"},
    {RA2_FAULT_STACK_TO_STACK, "a move goes from one stack place to another"},
    {RA2_FAULT_OUTSIDE_LIMIT, "the register's number isn't below the limit"},
    {RA2_FAULT_ORDER, "the output isn't in order"},
    {RA2_FAULT_MEMORY, "out of memory"},
    {RA2_FAULT_NO_CELL, "no register for the class, and no slot of the frame"},
    {RA2_FAULT_OTHER_CLASS, "a move goes from a register to one of another class"},
    {RA2_FAULT_OUTSIDE_FRAME, "a slot isn't within the frame"},
    {RA2_FAULT_SHARED_UNIT, "two slots share a unit"},
};

typedef size_t texts(uint32_t, uint8_t *, size_t);

static int is_text(texts *texts_of, uint32_t number, const char *expected) {
    uint8_t bytes[256];
    size_t count = texts_of(number, bytes, sizeof bytes), length = strlen(expected);
    return count == length && length <= sizeof bytes && memcmp(bytes, expected, length) == 0;
}

static int wrong_named(void) {
    static const uint32_t none[] = {RA2_BAD_FUNCTION, RA2_REFUSED, RA2_LAST_STATUS + 1, RA2_REFUSED + 256 + 1};
    int wrong = !is_text(regalloc2_c_fault_text, 0, "no fault") + !is_text(regalloc2_c_fault_text, RA2_FAULT_SHARED_UNIT + 1, "no fault");
    for (size_t k = 0; k < sizeof none / sizeof *none; k++)
        wrong += !is_text(regalloc2_c_status_text, none[k], "no status");
    for (size_t k = 0; k < sizeof causes / sizeof *causes; k++)
        wrong += !is_text(regalloc2_c_status_text, causes[k].number, causes[k].text);
    for (size_t k = 0; k < sizeof faults / sizeof *faults; k++)
        wrong += !is_text(regalloc2_c_fault_text, faults[k].number, faults[k].text);
    return wrong;
}

/* A text leaves what is behind it as it was. */
static int is_left_behind(void) {
    uint8_t bytes[256];
    memset(bytes, 7, sizeof bytes);
    for (size_t at = regalloc2_c_status_text(RA2_OK, bytes, sizeof bytes); at < sizeof bytes; at++)
        if (bytes[at] != 7)
            return 0;
    return 1;
}

static int wrong_texts(void) {
    uint8_t bytes[256];
    int wrong = (regalloc2_c_version() != RA2_VERSION) + wrong_named() + !is_left_behind();
    for (uint32_t n = 0; n <= RA2_LAST_STATUS; n++) {
        size_t count = regalloc2_c_status_text(n, bytes, sizeof bytes);
        wrong += count == 0 || count > sizeof bytes || regalloc2_c_status_text(n, bytes, 3) != count;
        count = regalloc2_c_fault_text(n, bytes, sizeof bytes);
        wrong += count == 0 || count > sizeof bytes;
    }
    if (wrong)
        printf("the version or %d texts\n", wrong);
    return wrong;
}

static void *calls(void *wrong) {
    for (int i = 0; i < ROUNDS && *(int *)wrong == 0; i++)
        *(int *)wrong = wrong_allocations() + wrong_words() + wrong_nulls() + wrong_refusals()
            + wrong_memory(regalloc2_c_allocate, RA2_NO_MEMORY) + wrong_memory(regalloc2_c_run, RA2_NO_MEMORY)
            + wrong_memory(judge_no_places, RA2_NO_MEMORY) + wrong_memory(allocate_good_text, RA2_BAD_FUNCTION_MEMORY) + wrong_judgements()
            + wrong_texts();
    return NULL;
}

int main(void) {
    pthread_t threads[THREADS];
    int wrong[THREADS] = {0}, all = 0;
    for (int i = 0; i < THREADS; i++)
        if (pthread_create(&threads[i], NULL, calls, &wrong[i]))
            return 2;
    for (int i = 0; i < THREADS; i++) {
        pthread_join(threads[i], NULL);
        all += wrong[i];
    }
    printf("%d differences in %d rounds of %d threads\n", all, ROUNDS, THREADS);
    return all != 0;
}
