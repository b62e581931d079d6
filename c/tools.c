/* Tests regalloc2_c_tools.h and regalloc2_c_json.h: the builder's words beside words laid by hand, in memory of each size; each of its errors; the
   reader of outputs and faults on all prefixes; the numbers of machines that don't fit; and a function's JSON, which gives the same output. */
#include "regalloc2_c_json.h"

static int wrong;

static void check(bool holds, const char *what) {
    if (!holds)
        wrong++, printf("%s\n", what);
}

#define COUNT(list) (sizeof(list) / sizeof *(list))
#define INT(number) ra2_register(RA2_INT, number)

/* A function with a member in each column. Block 0 goes to block1(v0), which defines v2 in v1's place and goes to itself or returns in block 2. */
static void build(struct ra2_builder *b) {
    const uint32_t v0 = ra2_vreg(RA2_INT, 0), v1 = ra2_vreg(RA2_INT, 1), v2 = ra2_vreg(RA2_INT, 2);
    const uint64_t first = ra2_def(v0, RA2_REG), replaces[] = {ra2_def(v2, RA2_REUSE + 1), ra2_use(v1, RA2_ANY)}, last = ra2_use(v2, RA2_FIXED + 1);
    uint32_t set[6] = {0};
    ra2_add(set, INT(1)), ra2_add(set, ra2_register(RA2_FLOAT, 32));
    ra2_add_preferred(b, INT(0)), ra2_add_preferred(b, INT(1)), ra2_add_preferred(b, ra2_register(RA2_FLOAT, 0));
    ra2_add_non_preferred(b, INT(2)), ra2_add_non_preferred(b, ra2_register(RA2_VECTOR, 62));
    ra2_add_block(b, NULL, 0);
    ra2_add_inst(b, ra2_kind(ra2_add_set(b, set), RA2_OP), &first, 1);
    ra2_add_inst(b, RA2_BRANCH, NULL, 0);
    ra2_add_edge(b, 1, &v0, 1);
    ra2_add_block(b, &v1, 1);
    ra2_add_inst(b, RA2_OP, replaces, 2);
    ra2_add_inst(b, RA2_BRANCH, NULL, 0);
    ra2_add_edge(b, 1, &v2, 1), ra2_add_edge(b, 2, NULL, 0);
    ra2_add_block(b, NULL, 0);
    ra2_add_inst(b, RA2_RETURN, &last, 1);
    ra2_set_scratch(b, INT(3)), ra2_add_slot(b, INT(5)), ra2_add_label(b, v0, 0, 2, 7);
    b->header[RA2_AT_FLAGS] = RA2_BY_LAST_UNIT;
    b->header[RA2_AT_SIZES] = ra2_sizes(0, 0, 1);
}

#define NONE 0, 0, 0, 0, 0, 0
#define INT_OPERAND(number, bits) number, (bits) << 2
static const uint32_t by_hand[] = {
    RA2_LAYOUT, 0, 5, 3, 4, 1, 3, 3, 1, 2, 3, 1, 1, 1, 1 << 16,
    3, 0, 0, 0, 0, 0, 0, 0, 1, 0, 0, 0, NONE,               /* preferred */
    4, 0, 0, 0, 0, 0, NONE, 0, 0, 0, 0, 0, 1 << 30,         /* non-preferred */
    1 + 3, 0, 0, 5,                                         /* scratch, fixed stack slots */
    2, 0, 0, 1, 0, 0,                                       /* the set */
    4, 2, 0, 2, 1, 1, 1, 3, 3, 4,                           /* kinds and operands' ends */
    INT_OPERAND(0, 1 | 1 << 2), INT_OPERAND(2, 1 | 33 << 2), INT_OPERAND(1, 2), INT_OPERAND(2, 2 | 65 << 2),
    2, 4, 5, 0, 2, 3, 1, 3, 3, 0, 1, 1,                     /* ends of instructions, predecessors, successors, parameters */
    0, 1, 1, 1, 1, 2, 4, 1, 2, 2, 0, 8,                     /* these, the ends of arguments, and the arguments */
    0, 0, 2, 7,                                             /* the label */
};

static bool is_by_hand(const uint32_t *words, size_t len) { return len == COUNT(by_hand) && memcmp(words, by_hand, sizeof by_hand) == 0; }

/* The same words in malloc's memory, twice, and in memory of the caller's from the least size on. */
static void test_builder(void) {
    enum { MOST = 3 * (int)COUNT(by_hand) };
    struct ra2_builder b;
    const uint32_t *words;
    size_t len, enough = 0;
    ra2_begin(&b, NULL, 0);
    for (int k = 0; k < 2; k++) {
        build(&b);
        check(ra2_finish(&b, &words, &len) == RA2_BUILT && is_by_hand(words, len), "the builder's words aren't those by hand");
        ra2_again(&b);
    }
    ra2_free(&b);
    for (size_t room = 0; room <= MOST; room++) {
        uint32_t *const memory = (uint32_t *)malloc((room + !room) * sizeof *memory);
        ra2_begin(&b, memory, room);
        build(&b);
        const int error = ra2_finish(&b, &words, &len);
        enough = enough ? enough : error ? 0 : room;
        check(enough ? !error && is_by_hand(words, len) : error == RA2_BUILD_NO_ROOM && !words && !len, "the caller's memory");
        ra2_free(&b);
        free(memory);
    }
    check(enough >= COUNT(by_hand) && enough <= 2 * COUNT(by_hand) + 2 * 8, "the room that the header states");
}

static void test_blocks(void) {
    uint32_t first, end;
    ra2_block_insts(by_hand, 0, &first, &end), check(first == 0 && end == 2, "block 0");
    ra2_block_insts(by_hand, 2, &first, &end), check(first == 4 && end == 5, "block 2");
}

/* The builder keeps its first error, and begins again without one. */
static void fails(struct ra2_builder *b, int error, const char *what) {
    const uint32_t *words;
    size_t len;
    ra2_add_block(b, NULL, 0);
    check(ra2_finish(b, &words, &len) == error && words == NULL && len == 0, what);
    check(strcmp(ra2_build_text(error), ra2_build_text(-1)) != 0, "an error's text");
    ra2_again(b);
    ra2_add_block(b, NULL, 0);
    check(ra2_finish(b, &words, &len) == RA2_BUILT && len == ra2_column(words, RA2_COLUMNS_END), "a builder that begins again");
    ra2_again(b);
}

static void test_errors(void) {
    static const uint32_t none[6] = {NONE};
    struct ra2_builder b;
    ra2_begin(&b, NULL, 0);
    ra2_add_inst(&b, RA2_RETURN, NULL, 0), fails(&b, RA2_BUILD_NO_BLOCK, "an instruction before blocks");
    ra2_add_edge(&b, 0, NULL, 0), fails(&b, RA2_BUILD_NO_BLOCK, "an edge before blocks");
    ra2_add_block(&b, NULL, 0), ra2_add_edge(&b, 2, NULL, 0), fails(&b, RA2_BUILD_NO_SUCCESSOR, "an edge to no block");
    ra2_add_preferred(&b, 192), fails(&b, RA2_BUILD_NO_REGISTER, "no register");
    ra2_set_scratch(&b, 192), ra2_add_edge(&b, 0, NULL, 0), fails(&b, RA2_BUILD_NO_REGISTER, "the first error");
    ra2_add_block(&b, NULL, RA2_NONE), fails(&b, RA2_BUILD_TOO_LARGE, "too many parameters");
    ra2_add_block(&b, NULL, 0), ra2_add_inst(&b, RA2_OP, NULL, RA2_NONE), fails(&b, RA2_BUILD_TOO_LARGE, "too many operands");
    b.header[RA2_AT_SETS] = RA2_NONE - 1, ra2_add_set(&b, none), fails(&b, RA2_BUILD_TOO_LARGE, "too many sets");
    check(strcmp(ra2_build_text(RA2_BUILT), ra2_build_text(RA2_BUILD_NO_REGISTER + 1)) != 0, "texts of errors");
    ra2_free(&b);
}

/* Two moves before inst0, one after it, none at inst1, one before inst2 and one after it; inst1 has no places. */
static const uint32_t output_words[] = {3, 1, 5, 0, 11, 12, 0, 13, 14, 1, 15, 16, 4, 17, 18, 5, 19, 20, 3, 21, 22, 23, 3, 0, 2, 2, 1, 9, 0, 6, 24};

static void test_output(void) {
    const size_t len = COUNT(output_words);
    struct ra2_output output;
    uint32_t words[COUNT(output_words) + 1] = {0}, seen[32], count = 0;
    memcpy(words, output_words, sizeof output_words);
    for (size_t n = 0; n <= len + 1; n++)
        check(ra2_read_output(&output, words, n) == (n == len), "an output of another length");
    check(ra2_read_output(&output, output_words, len) && output.num_slots == (1ull << 32) + 3 && output.num_moves == 5, "an output");
    check(output.num_places == 3 && output.num_insts == 3 && output.num_locations == 1 && output.locations[3] == 24, "an output's lists");
    for (uint32_t first = 0; first < 3; first++) {
        struct ra2_listing listing = ra2_list_insts(&output, first, first == 1 ? 3 : first + 1);
        for (struct ra2_item item; ra2_next(&listing, &item);)
            seen[count++] = item.is_move ? item.from : 100 + 10 * item.inst + (uint32_t)item.count + (item.count ? item.places[0] : 0);
    }
    static const uint32_t expected[] = {11, 13, 123, 15, 110, 17, 144, 19, 17, 144, 19};
    check(count == COUNT(expected) && memcmp(seen, expected, sizeof expected) == 0, "the listing");
    size_t places;
    ra2_places(&output, 3, &places), check(places == 0, "places of no instruction");
    words[24] = 4;
    ra2_read_output(&output, words, len), ra2_places(&output, 0, &places), check(places == 0, "places out of range");
    ra2_places(&output, 1, &places), check(places == 0, "places that end before they begin");
}

static void test_faults(void) {
    static const uint32_t words[] = {2, RA2_FAULT_OTHER_VALUES, 7, 1, 5, 24, 9, 0, 0, 2, 8, 12,
                                     RA2_FAULT_ORDER, RA2_NONE, RA2_NONE, 0, 0, 0, 0, 0, 0};
    struct ra2_fault fault;
    size_t at = 0;
    check(ra2_next_fault(words, COUNT(words), &at, &fault) && fault.number == RA2_FAULT_OTHER_VALUES, "a fault");
    check(fault.inst == 7 && fault.index == 1, "a fault's instruction");
    check(fault.operand == 5 + (24ull << 32) && fault.place == 9 && fault.num_vregs == 2 && fault.vregs[1] == 12, "a fault's operand");
    check(ra2_next_fault(words, COUNT(words), &at, &fault) && fault.number == RA2_FAULT_ORDER, "the second fault");
    check(fault.inst == RA2_NONE && fault.num_vregs == 0, "the second fault's parts");
    check(!ra2_next_fault(words, COUNT(words), &at, &fault), "a third fault");
    at = 0, check(!ra2_next_fault(words, 11, &at, &fault), "a fault cut short");
    at = 0, check(!ra2_next_fault(NULL, 0, &at, &fault), "no result");
}

/* A machine that doesn't fit, by the number of the condition. */
static void misfit(struct ra2_builder *b, uint32_t number) {
    const uint32_t invalid = INT(63);
    if (number != RA2_MISFIT_NO_REGISTER)
        ra2_add_preferred(b, INT(0));
    switch (number) {
    case RA2_MISFIT_INVALID_SLOT: ra2_add_slot(b, invalid); break;
    case RA2_MISFIT_OTHER_CLASS: ra2_add(b->registers, ra2_register(RA2_FLOAT, 0)); break;
    case RA2_MISFIT_LISTED_TWICE: ra2_add_non_preferred(b, INT(0)); break;
    case RA2_MISFIT_INVALID_REGISTER: ra2_add_preferred(b, invalid); break;
    case RA2_MISFIT_SCRATCH_OF_OTHER_CLASS: b->scratch[RA2_INT] = 1 + ra2_register(RA2_FLOAT, 0); break;
    case RA2_MISFIT_SCRATCH_ALLOCATABLE: ra2_set_scratch(b, INT(0)); break;
    case RA2_MISFIT_INVALID_SCRATCH: ra2_set_scratch(b, invalid); break;
    case RA2_MISFIT_SLOT_ALLOCATABLE: ra2_add_slot(b, INT(0)); break;
    case RA2_MISFIT_SLOT_IS_SCRATCH: ra2_set_scratch(b, INT(1)), ra2_add_slot(b, INT(1)); break;
    default: break;
    }
}

static void test_misfits(void) {
    struct ra2_result result = {NULL, 0, 0};
    struct ra2_builder b;
    const uint32_t *words;
    size_t len;
    char text[RA2_TEXT_ROOM];
    ra2_begin(&b, NULL, 0);
    for (uint32_t number = 0; number <= RA2_MISFIT_NO_REGISTER; number++) {
        const uint64_t operand = ra2_def(ra2_new_vreg(&b, RA2_INT), RA2_REG);
        misfit(&b, number);
        ra2_add_block(&b, NULL, 0);
        ra2_add_inst(&b, RA2_OP, &operand, 1);
        ra2_add_inst(&b, RA2_RETURN, NULL, 0);
        check(ra2_finish(&b, &words, &len) == RA2_BUILT, "a function is built");
        const uint32_t status = ra2_run(words, len, &result);
        check(number ? status == RA2_BAD_MACHINE && result.len == 3 && result.words[0] == number : status == RA2_OK, "a machine that doesn't fit");
        check(ra2_allocate(words, len, &result) == status, "the same with the checker");
        ra2_again(&b);
    }
    ra2_free(&b);
    check(ra2_agrees(), "the library's version");
    check(strcmp(ra2_status_text(RA2_OK, text, sizeof text), "the call succeeded") == 0, "a text");
    check(strcmp(ra2_status_text(RA2_OK, text, 4), "the") == 0 && strcmp(ra2_fault_text(RA2_FAULT_MISSING, text, 3), "an") == 0, "a text cut short");
    ra2_free_result(&result);
}

/* The call is repeated if there is too little room, and only then. */
static void test_room(void) {
    static const char text[] = "regs p0i\nblock0:\n  op: Def: v0i reg\n  ret: Use: v0i reg\n";
    struct ra2_result result = {NULL, 0, 0};
    result.words = (uint32_t *)malloc(sizeof *result.words);
    result.room = result.words ? 1 : 0;
    uint32_t status = RA2_NO_ROOM;
    result.len = 9, check(ra2_needs_more_(&status, &result) && result.room == 9, "room for nine words");
    result.len = 0, check(!ra2_needs_more_(&status, &result) && status == RA2_NO_ROOM, "no room that helps");
    result.len = SIZE_MAX, check(!ra2_needs_more_(&status, &result) && status == RA2_NO_MEMORY, "more room than there is");
    check(ra2_allocate_text(text, sizeof text - 1, &result) == RA2_OK && result.len > 2, "a text");
    check(ra2_allocate_json("{}", 2, &result) == RA2_UNREADABLE && result.len == 0, "JSON");
    ra2_free_result(&result);
}

/* A function that is allocated, with the machine of the one above, a set of clobbers, an argument and a label. */
static int build_allocatable(struct ra2_builder *b, const uint32_t **words, size_t *len) {
    const uint32_t v0 = ra2_vreg(RA2_INT, 0), v1 = ra2_vreg(RA2_INT, 1), set[6] = {1 << 1};
    const uint64_t first = ra2_def(v0, RA2_REG), last = ra2_use(v1, RA2_FIXED + 1);
    ra2_add_preferred(b, INT(0)), ra2_add_preferred(b, INT(1)), ra2_add_non_preferred(b, ra2_register(RA2_VECTOR, 62));
    ra2_set_scratch(b, INT(3)), ra2_add_slot(b, INT(5)), ra2_add_label(b, v0, 0, 2, 7);
    ra2_add_block(b, NULL, 0);
    ra2_add_inst(b, RA2_OP, &first, 1), ra2_add_inst(b, ra2_kind(ra2_add_set(b, set), RA2_OP), NULL, 0), ra2_add_inst(b, RA2_BRANCH, NULL, 0);
    ra2_add_edge(b, 1, &v0, 1);
    ra2_add_block(b, &v1, 1);
    ra2_add_inst(b, RA2_RETURN, &last, 1);
    return ra2_finish(b, words, len);
}

/* The JSON of a function ends as its words do, with the same result. */
static uint32_t both(const uint32_t *words, size_t len, struct ra2_result *of_words) {
    static char json[1 << 14];
    struct ra2_result of_json = {NULL, 0, 0};
    FILE *const file = tmpfile();
    const uint32_t status = ra2_allocate(words, len, of_words);
    check(file && ra2_write_json(file, words, len, NULL), "JSON is written");
    if (file) {
        rewind(file);
        check(ra2_allocate_json(json, fread(json, 1, sizeof json, file), &of_json) == status && of_json.len == of_words->len, "the JSON's status");
        check(of_json.len == of_words->len && memcmp(of_json.words, of_words->words, of_words->len * sizeof *words) == 0, "the JSON's result");
        fclose(file);
    }
    ra2_free_result(&of_json);
    return status;
}

/* Words that aren't a header and columns have no JSON, and others have one, whatever they name. */
static void test_json_of_any(FILE *file) {
    uint32_t words[COUNT(by_hand)];
    for (size_t n = 0; n < COUNT(by_hand); n++) {
        memcpy(words, by_hand, sizeof words);
        words[n] ^= 1u << 20;
        (void)ra2_write_json(file, words, COUNT(by_hand), NULL);
        check(!ra2_write_json(file, by_hand, n, NULL), "a function cut short");
    }
}

static void test_json(void) {
    struct ra2_result result = {NULL, 0, 0};
    struct ra2_output output;
    struct ra2_builder b;
    const uint32_t *words;
    size_t len;
    FILE *const file = tmpfile();
    ra2_begin(&b, NULL, 0);
    check(build_allocatable(&b, &words, &len) == RA2_BUILT && both(words, len, &result) == RA2_OK, "a function that is allocated");
    if (file) {
        check(ra2_read_output(&output, result.words, result.len) && ra2_write_json(file, words, len, &output), "an output's JSON");
        test_json_of_any(file);
        fclose(file);
    }
    check(both(by_hand, COUNT(by_hand), &result) == RA2_CRITICAL_EDGE, "a function that is refused");
    ra2_free(&b);
    ra2_free_result(&result);
}

int main(void) {
    test_builder();
    test_blocks();
    test_errors();
    test_output();
    test_faults();
    test_misfits();
    test_room();
    test_json();
    printf("%d differences\n", wrong);
    return wrong != 0;
}
