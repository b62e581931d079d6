/* A builder of functions, calls with room that grows, and readers of outputs and faults, over regalloc2_c.h. All is `static inline`, for C99 and
   C++11. Nothing of it is proved: what it builds is tested by the library as any words are. demo.c and jit.c use it. Names that end in an
   underscore are the header's own. */
#ifndef REGALLOC2_C_TOOLS_H
#define REGALLOC2_C_TOOLS_H
#include "regalloc2_c.h"
#include <stdlib.h>
#include <string.h>
#ifdef __cplusplus
extern "C" {
#endif

/* Returns whether the linked library has this header's layouts, and at least its calls. */
static inline bool ra2_agrees(void) {
    const uint32_t linked = regalloc2_c_version();
    return linked >> 16 == RA2_VERSION >> 16 && (linked & 0xffff) >= (RA2_VERSION & 0xffff);
}

/* Writes the text of a status, or of a fault's number, to `text` with a zero at its end, cut to `room` bytes, and returns `text`.
   RA2_TEXT_ROOM bytes hold each text. */
enum { RA2_TEXT_ROOM = 256 };
static inline const char *ra2_end_text_(char *text, size_t count, size_t room) {
    if (room)
        text[count < room ? count : room - 1] = 0;
    return text;
}
static inline const char *ra2_status_text(uint32_t status, char *text, size_t room) {
    return ra2_end_text_(text, regalloc2_c_status_text(status, (uint8_t *)text, room), room);
}
static inline const char *ra2_fault_text(uint32_t number, char *text, size_t room) {
    return ra2_end_text_(text, regalloc2_c_fault_text(number, (uint8_t *)text, room), room);
}

/* BUILDING A FUNCTION. A builder takes the machine and the sets of clobbers at any time, blocks in their order, and the instructions and edges
   of the block that began last. Blocks and instructions are numbered from 0, and an edge may lead to a block that begins later. The
   builder finds the predecessors, and raises the count of vregs above those that are defined.

   It keeps the first error, after which it takes nothing more, so testing ra2_finish is enough. ra2_finish returns the function's words, which
   stay in the builder's memory until the next ra2_begin, ra2_again or ra2_free. That memory is malloc's, or the caller's if ra2_begin is given
   some. Twice the function's words, and two more for each instruction, set, fixed stack slot and label, are always room enough. */
enum {
    RA2_BUILT = 0,
    RA2_BUILD_NO_MEMORY = 1,    /* malloc returned null */
    RA2_BUILD_NO_ROOM = 2,      /* the caller's memory is too small */
    RA2_BUILD_TOO_LARGE = 3,    /* a count is 2^32 - 1 or more */
    RA2_BUILD_NO_BLOCK = 4,     /* an instruction or edge precedes all blocks */
    RA2_BUILD_NO_SUCCESSOR = 5, /* an edge leads to a block that never began */
    RA2_BUILD_NO_REGISTER = 6   /* a register's index isn't below 192 */
};

struct ra2_builder {
    uint32_t header[RA2_HEADER_WORDS]; /* flags and sizes may be set before ra2_finish */
    uint32_t registers[36];            /* the preferred and the non-preferred sets */
    uint32_t scratch[3];
    uint32_t *memory; /* records of what was added: a column's number, a length, and words; then the function */
    size_t len, room; /* the words of records, and of memory */
    bool is_own;      /* whether the memory is malloc's */
    int error;
};

static inline const char *ra2_build_text(int error) {
    switch (error) {
    case RA2_BUILT: return "the function is built";
    case RA2_BUILD_NO_MEMORY: return "out of memory";
    case RA2_BUILD_NO_ROOM: return "the builder's memory is too small";
    case RA2_BUILD_TOO_LARGE: return "a count is 2^32 - 1 or more";
    case RA2_BUILD_NO_BLOCK: return "an instruction or edge precedes all blocks";
    case RA2_BUILD_NO_SUCCESSOR: return "an edge leads to a block that never began";
    case RA2_BUILD_NO_REGISTER: return "no such register";
    default: return "no error of a builder";
    }
}

/* Removes all that was added, and the error, and keeps the memory. */
static inline void ra2_again(struct ra2_builder *b) {
    memset(b->header, 0, sizeof b->header);
    memset(b->registers, 0, sizeof b->registers);
    memset(b->scratch, 0, sizeof b->scratch);
    b->header[RA2_AT_LAYOUT] = RA2_LAYOUT;
    b->len = 0;
    b->error = RA2_BUILT;
}

/* Begins a function in `memory`, which has room for `room` words and outlives the builder, or if it is null in memory of malloc's. */
static inline void ra2_begin(struct ra2_builder *b, uint32_t *memory, size_t room) {
    b->memory = memory;
    b->room = memory ? room : 0;
    b->is_own = !memory;
    ra2_again(b);
}

/* Frees the memory, if it is malloc's. The builder may begin again. */
static inline void ra2_free(struct ra2_builder *b) {
    if (b->is_own)
        free(b->memory);
    ra2_begin(b, NULL, 0);
}

/* Returns `count` words behind the records, or null and an error. */
static inline uint32_t *ra2_reserve_(struct ra2_builder *b, size_t count) {
    size_t room = b->room;
    if (b->error)
        return NULL;
    if (count <= room - b->len)
        return b->memory + b->len;
    if (b->is_own && count <= SIZE_MAX / 16 - b->len) {
        const size_t least = b->len + count;
        room = room < 128 ? 256 : 2 * room;
        room = room < least ? least : room;
        uint32_t *const memory = (uint32_t *)realloc(b->memory, room * sizeof *memory);
        if (memory) {
            b->memory = memory;
            b->room = room;
            return memory + b->len;
        }
    }
    b->error = b->is_own ? RA2_BUILD_NO_MEMORY : RA2_BUILD_NO_ROOM;
    return NULL;
}

/* Adds `more` to a count of the header. Returns whether the sum fits. */
static inline bool ra2_count_(struct ra2_builder *b, unsigned at, size_t more) {
    if (!b->error && more >= RA2_NONE - b->header[at])
        b->error = RA2_BUILD_TOO_LARGE;
    if (!b->error)
        b->header[at] += (uint32_t)more;
    return !b->error;
}

/* Adds a record of `count` words for the column, and returns where they go, or null and an error. */
static inline uint32_t *ra2_record_(struct ra2_builder *b, uint32_t column, size_t count) {
    uint32_t *const record = count < RA2_NONE ? ra2_reserve_(b, count + 2) : NULL;
    if (!record) {
        b->error = b->error ? b->error : RA2_BUILD_TOO_LARGE;
        return NULL;
    }
    record[0] = column;
    record[1] = (uint32_t)count;
    b->len += count + 2;
    return record + 2;
}

static inline void ra2_copy_(uint32_t *to, const uint32_t *from, size_t count) {
    if (count)
        memcpy(to, from, count * sizeof *to);
}

/* The vreg of a class with the lowest number above those that are defined. */
static inline uint32_t ra2_new_vreg(struct ra2_builder *b, uint32_t class_) {
    const uint32_t number = b->header[RA2_AT_VREGS];
    ra2_count_(b, RA2_AT_VREGS, 1);
    return ra2_vreg(class_, number);
}
static inline void ra2_defines_(struct ra2_builder *b, uint32_t number) {
    if (number >= b->header[RA2_AT_VREGS])
        b->header[RA2_AT_VREGS] = number + (number < RA2_NONE);
}

/* The machine: registers that are preferred, or not, or scratch, and those that are fixed stack slots. */
static inline bool ra2_has_register_(struct ra2_builder *b, uint32_t reg) {
    if (!b->error && reg >= 192)
        b->error = RA2_BUILD_NO_REGISTER;
    return !b->error;
}
static inline void ra2_add_register_(struct ra2_builder *b, size_t at, uint32_t reg) {
    if (ra2_has_register_(b, reg))
        ra2_add(b->registers + at + 6 * ra2_class_of_register(reg), reg);
}
static inline void ra2_add_preferred(struct ra2_builder *b, uint32_t reg) { ra2_add_register_(b, 0, reg); }
static inline void ra2_add_non_preferred(struct ra2_builder *b, uint32_t reg) { ra2_add_register_(b, 18, reg); }
static inline void ra2_set_scratch(struct ra2_builder *b, uint32_t reg) {
    if (ra2_has_register_(b, reg))
        b->scratch[ra2_class_of_register(reg)] = 1 + reg;
}
static inline void ra2_add_slot(struct ra2_builder *b, uint32_t reg) {
    uint32_t *const to = ra2_record_(b, RA2_SLOTS, 1);
    if (to && ra2_count_(b, RA2_AT_SLOTS, 1))
        *to = reg;
}

/* Adds a set of clobbers, six words. Returns its number for ra2_kind. */
static inline uint32_t ra2_add_set(struct ra2_builder *b, const uint32_t *set) {
    uint32_t *const to = ra2_record_(b, RA2_SETS, 6);
    if (to && ra2_count_(b, RA2_AT_SETS, 1))
        ra2_copy_(to, set, 6);
    return b->header[RA2_AT_SETS];
}

/* Begins a block with `count` parameters. Returns its number. */
static inline uint32_t ra2_add_block(struct ra2_builder *b, const uint32_t *params, size_t count) {
    const uint32_t number = b->header[RA2_AT_BLOCKS];
    uint32_t *const to = ra2_record_(b, RA2_PARAMS, count);
    if (!to || !ra2_count_(b, RA2_AT_BLOCKS, 1) || !ra2_count_(b, RA2_AT_PARAMS, count))
        return number;
    ra2_copy_(to, params, count);
    for (size_t k = 0; k < count; k++)
        ra2_defines_(b, ra2_number_of_vreg(params[k]));
    return number;
}

static inline bool ra2_has_block_(struct ra2_builder *b) {
    if (!b->error && b->header[RA2_AT_BLOCKS] == 0)
        b->error = RA2_BUILD_NO_BLOCK;
    return !b->error;
}

/* Adds an instruction to the block, with a kind of ra2_kind and `count` operands. Returns its number. */
static inline uint32_t ra2_add_inst(struct ra2_builder *b, uint32_t kind, const uint64_t *operands, size_t count) {
    const uint32_t number = b->header[RA2_AT_INSTS];
    uint32_t *to = ra2_has_block_(b) ? ra2_record_(b, RA2_KINDS, count < RA2_NONE / 2 ? 1 + 2 * count : RA2_NONE) : NULL;
    if (!to || !ra2_count_(b, RA2_AT_INSTS, 1) || !ra2_count_(b, RA2_AT_OPERANDS, count))
        return number;
    *to++ = kind;
    for (size_t k = 0; k < count; k++) {
        *to++ = (uint32_t)operands[k];
        *to++ = (uint32_t)(operands[k] >> 32);
        if (ra2_is_def(operands[k]))
            ra2_defines_(b, (uint32_t)operands[k]);
    }
    return number;
}

/* Adds an edge of the block to the block `succ`, with `count` arguments. */
static inline void ra2_add_edge(struct ra2_builder *b, uint32_t succ, const uint32_t *arguments, size_t count) {
    uint32_t *const to = ra2_has_block_(b) ? ra2_record_(b, RA2_SUCCS, count < RA2_NONE ? 1 + count : RA2_NONE) : NULL;
    if (!to || !ra2_count_(b, RA2_AT_EDGES, 1) || !ra2_count_(b, RA2_AT_ARGUMENTS, count))
        return;
    *to = succ;
    ra2_copy_(to + 1, arguments, count);
}

/* Adds a debug label of a vreg from the instruction `from` up to `end`, without `end`. */
static inline void ra2_add_label(struct ra2_builder *b, uint32_t vreg, uint32_t from, uint32_t end, uint32_t label) {
    uint32_t *const to = ra2_record_(b, RA2_LABELS, 4);
    if (to && ra2_count_(b, RA2_AT_LABELS, 1))
        to[0] = vreg, to[1] = from, to[2] = end, to[3] = label;
}

/* The next word of each column, and the number of members of the columns that have ends. */
struct ra2_laying_ {
    uint32_t *next[RA2_COLUMNS_END];
    uint32_t insts, operands, edges, params, arguments;
};

static inline void ra2_lay_(struct ra2_laying_ *to, unsigned column, const uint32_t *words, size_t count) {
    ra2_copy_(to->next[column], words, count);
    to->next[column] += count;
}

/* Lays out an instruction, an edge or the begin of a block, after which the last block ends for now. */
static inline void ra2_lay_in_block_(struct ra2_laying_ *to, uint32_t column, const uint32_t *words, uint32_t count) {
    if (column == RA2_KINDS) {
        ra2_lay_(to, RA2_KINDS, words, 1);
        ra2_lay_(to, RA2_OPERANDS, words + 1, count - 1);
        *to->next[RA2_OPERAND_ENDS]++ = to->operands += (count - 1) / 2;
        to->insts++;
    } else if (column == RA2_SUCCS) {
        ra2_lay_(to, RA2_SUCCS, words, 1);
        ra2_lay_(to, RA2_ARGUMENTS, words + 1, count - 1);
        *to->next[RA2_ARGUMENT_ENDS]++ = to->arguments += count - 1;
        to->edges++;
    } else {
        ra2_lay_(to, RA2_PARAMS, words, count);
        to->params += count;
        to->next[RA2_INST_ENDS]++, to->next[RA2_SUCC_ENDS]++, to->next[RA2_PARAM_ENDS]++;
    }
    to->next[RA2_INST_ENDS][-1] = to->insts;
    to->next[RA2_SUCC_ENDS][-1] = to->edges;
    to->next[RA2_PARAM_ENDS][-1] = to->params;
}

static inline void ra2_lay_records_(struct ra2_laying_ *to, const uint32_t *record, const uint32_t *end) {
    for (; record < end; record += 2 + record[1])
        if (record[0] == RA2_KINDS || record[0] == RA2_SUCCS || record[0] == RA2_PARAMS)
            ra2_lay_in_block_(to, record[0], record + 2, record[1]);
        else
            ra2_lay_(to, record[0], record + 2, record[1]);
}

/* Counts the predecessors of each block, whose ends are 0, in the ends. Returns whether each successor is a block. */
static inline bool ra2_count_preds_(const uint32_t *header, const uint32_t *succs, uint32_t *ends) {
    for (uint32_t edge = 0; edge < header[RA2_AT_EDGES]; edge++) {
        if (succs[edge] >= header[RA2_AT_BLOCKS])
            return false;
        ends[succs[edge]]++;
    }
    return true;
}

/* Writes the predecessors of all blocks from the successors. A block's end is its first predecessor's index until all are written. */
static inline bool ra2_lay_preds_(uint32_t *words) {
    const uint32_t *const succs = words + ra2_column(words, RA2_SUCCS), *const succ_ends = words + ra2_column(words, RA2_SUCC_ENDS);
    uint32_t *const ends = words + ra2_column(words, RA2_PRED_ENDS), *const preds = words + ra2_column(words, RA2_PREDS);
    memset(ends, 0, words[RA2_AT_BLOCKS] * sizeof *ends);
    if (!ra2_count_preds_(words, succs, ends))
        return false;
    for (uint32_t block = 0, start = 0; block < words[RA2_AT_BLOCKS]; block++) {
        start += ends[block];
        ends[block] = start - ends[block];
    }
    for (uint32_t block = 0, edge = 0; block < words[RA2_AT_BLOCKS]; block++)
        for (; edge < succ_ends[block]; edge++)
            preds[ends[succs[edge]]++] = block;
    return true;
}

/* Writes the function's words behind the records, and sets `*words` and `*len` to them. Returns RA2_BUILT, or the first error and no words. */
static inline int ra2_finish(struct ra2_builder *b, const uint32_t **words, size_t *len) {
    struct ra2_laying_ laying;
    *words = NULL, *len = 0;
    b->header[RA2_AT_PREDS] = b->header[RA2_AT_EDGES];
    const size_t count = ra2_column(b->header, RA2_COLUMNS_END);
    uint32_t *const to = ra2_reserve_(b, count);
    if (!to)
        return b->error;
    memset(&laying, 0, sizeof laying);
    for (unsigned column = 0; column < RA2_COLUMNS_END; column++)
        laying.next[column] = to + ra2_column(b->header, column);
    ra2_copy_(to, b->header, RA2_HEADER_WORDS);
    ra2_lay_(&laying, RA2_PREFERRED, b->registers, 18);
    ra2_lay_(&laying, RA2_NON_PREFERRED, b->registers + 18, 18);
    ra2_lay_(&laying, RA2_SCRATCH, b->scratch, 3);
    ra2_lay_records_(&laying, b->memory, to);
    if (!ra2_lay_preds_(to))
        return b->error = RA2_BUILD_NO_SUCCESSOR;
    *words = to, *len = count;
    return RA2_BUILT;
}

/* Sets `*first` and `*end` to the instructions of a block of a function: from the first one up to `end`, without `end`. */
static inline void ra2_block_insts(const uint32_t *words, uint32_t block, uint32_t *first, uint32_t *end) {
    const uint32_t *const ends = words + ra2_column(words, RA2_INST_ENDS);
    *first = block ? ends[block - 1] : 0;
    *end = ends[block];
}

/* CALLING. A result whose memory, malloc's, grows as calls need it and is kept from call to call. It begins as {NULL, 0, 0}. */
struct ra2_result {
    uint32_t *words;
    size_t len, room; /* the words of the last call's result, and of the memory */
};

static inline void ra2_free_result(struct ra2_result *result) {
    free(result->words);
    memset(result, 0, sizeof *result);
}

/* Makes room for `room` words, which loses the result. Returns whether there is memory. */
static inline bool ra2_make_room(struct ra2_result *result, size_t room) {
    if (room <= result->room)
        return true;
    uint32_t *const words = room <= SIZE_MAX / sizeof *words ? (uint32_t *)malloc(room * sizeof *words) : NULL;
    if (words) {
        ra2_free_result(result);
        result->words = words;
        result->room = room;
    }
    return words != NULL;
}

/* Returns whether a call that ended by `*status` is to be repeated, for which there is room now. */
static inline bool ra2_needs_more_(uint32_t *status, struct ra2_result *result) {
    if (*status != RA2_NO_ROOM || result->len <= result->room)
        return false;
    if (ra2_make_room(result, result->len))
        return true;
    *status = RA2_NO_MEMORY;
    return false;
}

/* More words than nearly every output of a function of `len` words takes. A call with too little room does the whole work in vain. */
static inline size_t ra2_expected(size_t len) { return 256 + 2 * (len < SIZE_MAX / 16 ? len : SIZE_MAX / 16); }

/* regalloc2_c_run, regalloc2_c_allocate, regalloc2_c_allocate_json and regalloc2_c_allocate_text with such a result. RA2_NO_MEMORY also says that
   malloc returned null for the result. */
static inline uint32_t ra2_run(const uint32_t *words, size_t len, struct ra2_result *result) {
    uint32_t status;
    (void)ra2_make_room(result, ra2_expected(len));
    do
        status = regalloc2_c_run(words, len, result->words, result->room, &result->len);
    while (ra2_needs_more_(&status, result));
    return status;
}
static inline uint32_t ra2_allocate(const uint32_t *words, size_t len, struct ra2_result *result) {
    uint32_t status;
    (void)ra2_make_room(result, ra2_expected(len));
    do
        status = regalloc2_c_allocate(words, len, result->words, result->room, &result->len);
    while (ra2_needs_more_(&status, result));
    return status;
}
static inline uint32_t ra2_allocate_json(const char *json, size_t len, struct ra2_result *result) {
    uint32_t status;
    (void)ra2_make_room(result, ra2_expected(len));
    do
        status = regalloc2_c_allocate_json((const uint8_t *)json, len, result->words, result->room, &result->len);
    while (ra2_needs_more_(&status, result));
    return status;
}
static inline uint32_t ra2_allocate_text(const char *text, size_t len, struct ra2_result *result) {
    uint32_t status;
    (void)ra2_make_room(result, ra2_expected(len));
    do
        status = regalloc2_c_allocate_text((const uint8_t *)text, len, result->words, result->room, &result->len);
    while (ra2_needs_more_(&status, result));
    return status;
}

/* READING AN OUTPUT, which points into the words of a result. */
struct ra2_output {
    uint64_t num_slots;        /* the units of slots */
    const uint32_t *moves;     /* three words each: a point, a source, a destination */
    const uint32_t *places;    /* of all operands */
    const uint32_t *offsets;   /* for each instruction the index of its first place */
    const uint32_t *locations; /* four words each: a label, the first and the end point, a place */
    uint32_t num_moves, num_places, num_insts, num_locations;
};

/* Reads a list at `*at`, whose members have `width` words, and steps behind it. Returns null if `left` words don't hold it. */
static inline const uint32_t *ra2_list_(const uint32_t **at, size_t *left, size_t width, uint32_t *count) {
    const uint32_t *const members = *at + 1;
    if (*left == 0 || **at > (*left - 1) / width)
        return NULL;
    *count = **at;
    *left -= 1 + width * *count;
    *at += 1 + width * *count;
    return members;
}

/* Reads the `len` words of the result of a call that returned RA2_OK. Returns whether they are an output's. */
static inline bool ra2_read_output(struct ra2_output *output, const uint32_t *result, size_t len) {
    if (len < 2)
        return false;
    output->num_slots = result[0] | (uint64_t)result[1] << 32;
    result += 2, len -= 2;
    return (output->moves = ra2_list_(&result, &len, 3, &output->num_moves)) != NULL
        && (output->places = ra2_list_(&result, &len, 1, &output->num_places)) != NULL
        && (output->offsets = ra2_list_(&result, &len, 1, &output->num_insts)) != NULL
        && (output->locations = ra2_list_(&result, &len, 4, &output->num_locations)) != NULL && len == 0;
}

/* The places of an instruction's operands, in their order. An instruction without a range of places has none. */
static inline const uint32_t *ra2_places(const struct ra2_output *output, uint32_t inst, size_t *count) {
    const uint32_t first = inst < output->num_insts ? output->offsets[inst] : 0;
    const uint32_t end = inst >= output->num_insts ? 0 : inst + 1 < output->num_insts ? output->offsets[inst + 1] : output->num_places;
    const bool is_range = first <= end && end <= output->num_places;
    *count = is_range ? end - first : 0;
    return output->places + (is_range ? first : 0);
}

/* A listing: the instructions of a range, with the moves before and after each, in the order in which they run. The instructions of a
   block are ra2_block_insts.

       struct ra2_listing listing = ra2_list_insts(&output, first, end);
       for (struct ra2_item item; ra2_next(&listing, &item);)
           if (item.is_move) .. item.from, item.to .. else .. item.inst, item.places[k] .. */
struct ra2_item {
    bool is_move;
    uint32_t inst;          /* the instruction, or the one at which the move is */
    uint32_t from, to;      /* places, of a move */
    const uint32_t *places; /* `count` places, of an instruction */
    size_t count;
};

struct ra2_listing {
    const struct ra2_output *output;
    uint32_t move;       /* the next move */
    uint64_t point, end; /* the next point, and the one at which the listing ends */
};

/* The first move whose point isn't below `point`. */
static inline uint32_t ra2_first_move_(const struct ra2_output *output, uint64_t point) {
    uint32_t first = 0, end = output->num_moves;
    while (first < end) {
        const uint32_t middle = first + (end - first) / 2;
        if (output->moves[3 * (size_t)middle] < point)
            first = middle + 1;
        else
            end = middle;
    }
    return first;
}

static inline struct ra2_listing ra2_list_insts(const struct ra2_output *output, uint32_t first, uint32_t end) {
    struct ra2_listing listing;
    listing.output = output;
    listing.point = 2 * (uint64_t)first;
    listing.end = 2 * (uint64_t)end;
    listing.move = ra2_first_move_(output, listing.point);
    return listing;
}

/* Sets `item` to the next move or instruction. Returns whether there is one. */
static inline bool ra2_next(struct ra2_listing *listing, struct ra2_item *item) {
    const struct ra2_output *const output = listing->output;
    memset(item, 0, sizeof *item);
    for (; listing->point < listing->end; listing->point++) {
        const uint32_t *const move = output->moves + 3 * (size_t)listing->move;
        item->inst = (uint32_t)(listing->point / 2);
        if (listing->move < output->num_moves && move[0] == listing->point) {
            item->is_move = true;
            item->from = move[1], item->to = move[2];
            listing->move++;
            return true;
        }
        if (listing->point % 2 == 0) {
            item->places = ra2_places(output, item->inst, &item->count);
            listing->point++;
            return true;
        }
    }
    return false;
}

/* A fault, whose numbers are above. */
struct ra2_fault {
    uint32_t number, inst, index;
    uint64_t operand;
    uint32_t place, other, bound;
    const uint32_t *vregs;
    uint32_t num_vregs;
};

/* Reads the fault at `*at` of the result of RA2_FAULTS, and steps behind it; `*at` begins as 0. Returns whether there is one. */
static inline bool ra2_next_fault(const uint32_t *result, size_t len, size_t *at, struct ra2_fault *fault) {
    const size_t start = *at ? *at : 1;
    if (start > len || len - start < 9 || result[start + 8] > len - start - 9)
        return false;
    const uint32_t *const words = result + start;
    fault->number = words[0], fault->inst = words[1], fault->index = words[2];
    fault->operand = words[3] | (uint64_t)words[4] << 32;
    fault->place = words[5], fault->other = words[6], fault->bound = words[7];
    fault->vregs = words + 9;
    fault->num_vregs = words[8];
    *at = start + 9 + words[8];
    return true;
}

#ifdef __cplusplus
}
#endif
#endif
