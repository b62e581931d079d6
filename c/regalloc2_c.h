/* The allocator and its checker. Link libregalloc2_c.a, and libregalloc2_c_heap.a (regalloc2_c_heap.c), the toolchain's liblibc_c.a, or
   three functions of your own: rattle_alloc, rattle_realloc and rattle_dealloc, declared below. The shared object libregalloc2_c.so.2 has
   the library with malloc's memory.

   POINTERS. Each names memory of its length in words or bytes, aligned as its type, and may be null if that length is 0.
   `needed` has no length and is never null. What a call writes (`text`, `result`, `needed`) overlaps nothing else
   that it is given, and nobody else reads or writes it during the call; what a call only reads may overlap, and
   nobody writes it. Nothing can check this. The library keeps nothing from call to call, so threads may call at once
   if the heap functions allow that, as those over malloc do. Each call is also a macro of its own name, which
   replaces a null pointer, because the functions themselves take none. `(regalloc2_c_run)` is the function, and so is
   a name without arguments behind it. An argument that has a comma outside of parentheses, as a compound literal may,
   has to be put in parentheses.

   NUMBERS. All are 32-bit words; a number of 64 bits is two, the lower one first. A register is its index (hardware
   number + 64 * class: 0 integer, 1 float, 2 vector), a vreg 4 * number + class, an operand the 64-bit word of
   docs/INPUT.md, a point 2 * instruction (+ 1 after it), a place a word whose upper three bits are its kind (0 none,
   1 register, 2 slot) and whose lower ones are the register's index or the slot's number. A set of registers is six
   words: register r is in it if bit r % 32 of word r / 32 is 1.

   THE FUNCTION is a header of 15 words, and columns, which follow one another without a gap. The header:
      0  2, the number of this layout
      1  the entry block
      2  I  instructions
      3  B  blocks
      4  O  operands of all instructions
      5  S  sets of clobbers
      6  E  edges, which are the successors of all blocks
      7  P  predecessors of all blocks
      8  Q  parameters of all blocks
      9  A  arguments of all edges
     10  V  a number above that of each vreg that is defined
     11  L  labels
     12  X  fixed stack slots
     13     flags: 1 if a slot of several units is named by its last one, and 2 more if vregs may have several definitions
     14     the logarithms of a slot's units: of an integer in bits 0 to 7, of a float in bits 8 to 15, of a vector in bits 16 to 23

   The columns, and how many words each takes:
      1  preferred registers       18     a set for each class
      2  non-preferred registers   18     a set for each class
      3  scratch registers          3     for each class 0 for none, else 1 + a register
      4  fixed stack slots          X     registers
      5  sets of clobbers         6 S     sets, numbered from 1 in their order
      6  kinds                      I     for each instruction 4 * the number of its set of clobbers, which is 0 for none, + what it is:
                                          0 op, 1 return, 2 branch
      7  operands' ends             I     for each instruction
      8  operands                 2 O
      9  instructions' ends         B     for each block
     10  predecessors' ends         B     for each block
     11  successors' ends           B     for each block
     12  parameters' ends           B     for each block
     13  predecessors               P     blocks, one for each edge
     14  successors                 E     blocks
     15  parameters                 Q     vregs
     16  arguments' ends            E     for each successor of each block
     17  arguments                  A     vregs
     18  labels                   4 L     each a vreg, its first instruction, the one past its last, a label
   An end counts members, not words, up to the last one of its instruction, block or edge: the operands of instruction k are those from end
   k - 1, or from 0, up to end k. So ends don't fall, and the last is the count in the header; without ends the count is 0. The instructions of
   blocks, which therefore follow one another, and all others lie in the same way. regalloc2_c_tools.h has a builder of these words, and demo.c a
   small function.

   Words that aren't such a header and its columns are RA2_UNREADABLE: word 0 isn't 2, there are fewer or more words than
   the header says, flags are 4 or more, or sizes 2^24 or more. Else the status is RA2_BAD_FUNCTION plus the first of
   these that is so:
     1   ends fall, or the last isn't the count
     2   the entry, a predecessor or a successor isn't below B, a set isn't at most S, or a label's vreg isn't below V
     3   a word is no register, vreg, operand or kind
     4   I or V isn't below 2^30, B not below 2^32 - 1, or a logarithm is above 24
   Of a function in JSON or in a text these, and 5 for memory, are as `bad function` of docs/INPUT.md. JSON of another
   shape is RA2_UNREADABLE.

   THE OUTPUT. A list is its length and then its members. The units of slots (two words); a list of moves, each a point,
   a source, a destination; a list of places; a list of offsets, one for each instruction; a list of debug locations,
   each a label, two points, a place.

   THE RESULT of a call is words, whatever its status: `*needed` is how many. If there is room for them they are written,
   and what is behind them stays as it was; else the status is RA2_NO_ROOM, nothing is written, and a second call with
   room for `*needed` words gives the result: so a call is made twice at most. The result by status:
     RA2_OK              the output; of regalloc2_c_judge none
     RA2_BAD_MACHINE     3 words: which condition fails, from RA2_MISFIT_INVALID_SLOT to RA2_MISFIT_NO_REGISTER; the class; the register
     RA2_FAULTS          a list of faults: how many, and each as below
     RA2_BAD_TEXT        2 words: the line and the column, in bytes, both counted from 1
     RA2_REFUSED + n     4 words: two blocks, an instruction, a vreg
     else                none
   RA2_NONE stands for what isn't named. RA2_NO_ROOM with `*needed` 0 says that a number of the output, as a list's
   length, is 2^32 or more.

   A FAULT is 8 words and a list of vregs:
     0   its number, from RA2_FAULT_MISSING to RA2_FAULT_SHARED_UNIT: 1, 2 or 4 to 12 as `error` of docs/INPUT.md; 14 a place that is no register for
         the class and no slot of the frame, 15 a move between classes, 16 a slot that isn't within the frame, 17 slots that share a unit;
         regalloc2_c_fault_text has them in words
     1   the instruction, or RA2_NONE
     2   of 1 to 9 and 11 the index of the first operand of the instruction with the word and the place below; of 14 the operand's index, or
         without an instruction the move's; of 15 the move's index; of 16 and 17 the slot; else RA2_NONE
     3,4 of 1 to 9 and 11 the operand's word, else 0
     5   of 1 to 9 and 11 the operand's place, of 10 the one that a move writes, else 0
     6   of 8 the reused operand's place, of 10 the one that a move reads, else 0
     7   of 11 the limit, of 17 the other slot, of 14 without instruction and index the debug location's index, else 0
     8.. of 4 a list of the vregs whose values the place holds, else an empty one
   Faults are in the order of blocks and instructions. Where there is none of 1 to 12, one of 14 to 17 is listed,
   alone. */
#ifndef REGALLOC2_C_H
#define REGALLOC2_C_H
#include <stdbool.h>
#include <stddef.h>
#include <stdint.h>
#ifdef __cplusplus
extern "C" {
#endif

#define RA2_NONE 0xffffffffu

enum {
    RA2_OK = 0,
    RA2_UNREADABLE = 1,   /* the words aren't a header and its columns, or no output, or the bytes are no function */
    RA2_BAD_MACHINE = 2,  /* the machine doesn't fit the function */
    RA2_NO_ROOM = 3,      /* the result takes more words than there is room for */
    RA2_FAULTS = 4,       /* the checker found faults, or places aren't cells */
    RA2_NO_MEMORY = 5,    /* a memory allocation failed, or there are 2^32 faults or more */
    RA2_NOT_FRAMED = 6,   /* the function isn't structurally valid, so that no output can be judged: blocks don't follow one another or don't
                             end in a branch or a return, or an edge has more or fewer arguments than its successor has parameters */
    RA2_BAD_OUTPUT = 7,   /* the output's numbers name none */
    RA2_READ_BEFORE_WRITTEN = 8, /* some path reads or passes a vreg before writing it */
    RA2_BAD_TEXT = 9,     /* a line of the text can't be read */
    RA2_BAD_FUNCTION = 10,/* and 1 to 5: as above, by the names below */
    RA2_REFUSED = 20,     /* and 1 to 11: the allocator's errors, by the names below; the text of each has its cause */
    RA2_LAST_STATUS = 31
};

/* The statuses above RA2_BAD_FUNCTION. */
enum {
    RA2_BAD_FUNCTION_LENGTHS = RA2_BAD_FUNCTION + 1,
    RA2_BAD_FUNCTION_INDEX = RA2_BAD_FUNCTION + 2,
    RA2_BAD_FUNCTION_BITS = RA2_BAD_FUNCTION + 3,
    RA2_BAD_FUNCTION_LIMIT = RA2_BAD_FUNCTION + 4,
    RA2_BAD_FUNCTION_MEMORY = RA2_BAD_FUNCTION + 5
};

/* The statuses above RA2_REFUSED, and what their results name. */
enum {
    RA2_CRITICAL_EDGE = RA2_REFUSED + 1,         /* both blocks */
    RA2_NOT_SSA = RA2_REFUSED + 2,               /* the vreg and the instruction, which is RA2_NONE for a block's parameter */
    RA2_BAD_BLOCK = RA2_REFUSED + 3,             /* the block */
    RA2_BAD_BRANCH = RA2_REFUSED + 4,            /* the branch */
    RA2_ENTRY_HAS_PARAMS = RA2_REFUSED + 5,
    RA2_BRANCH_HAS_OPERANDS = RA2_REFUSED + 6,   /* the branch */
    RA2_TOO_MANY_LIVE_REGISTERS = RA2_REFUSED + 7,
    RA2_TOO_MANY_OPERANDS = RA2_REFUSED + 8,
    RA2_UNSUPPORTED = RA2_REFUSED + 9,           /* the instruction */
    RA2_TOO_MANY_SLOTS = RA2_REFUSED + 10,
    RA2_REFUSED_MEMORY = RA2_REFUSED + 11
};

/* The first word of the result of RA2_BAD_MACHINE, and what the others name. */
enum {
    RA2_MISFIT_INVALID_SLOT = 1,           /* a fixed stack slot is an invalid register */
    RA2_MISFIT_OTHER_CLASS = 2,            /* the class, and its register of another class */
    RA2_MISFIT_LISTED_TWICE = 3,           /* the class, and the register that is preferred and non-preferred */
    RA2_MISFIT_INVALID_REGISTER = 4,       /* the class that has an invalid register */
    RA2_MISFIT_SCRATCH_OF_OTHER_CLASS = 5, /* the class, and its scratch register of another class */
    RA2_MISFIT_SCRATCH_ALLOCATABLE = 6,    /* the class, and its scratch register, which is preferred or non-preferred too */
    RA2_MISFIT_INVALID_SCRATCH = 7,        /* the class whose scratch register is invalid */
    RA2_MISFIT_SLOT_ALLOCATABLE = 8,       /* the class, and a fixed stack slot, which is preferred or non-preferred too */
    RA2_MISFIT_SLOT_IS_SCRATCH = 9,        /* the class, and its scratch register, which is a fixed stack slot too */
    RA2_MISFIT_NO_REGISTER = 10            /* the class without a register, of which the function names a vreg */
};

/* The numbers of faults. No call reports RA2_FAULT_CONFLICTING_VALUES or RA2_FAULT_MEMORY. */
enum {
    RA2_FAULT_MISSING = 1,
    RA2_FAULT_NO_VALUE = 2,
    RA2_FAULT_CONFLICTING_VALUES = 3,
    RA2_FAULT_OTHER_VALUES = 4,
    RA2_FAULT_NO_SUCH_OPERAND = 5,
    RA2_FAULT_NOT_REGISTER = 6,
    RA2_FAULT_NOT_FIXED_REGISTER = 7,
    RA2_FAULT_NOT_REUSED = 8,
    RA2_FAULT_NOT_STACK = 9,
    RA2_FAULT_STACK_TO_STACK = 10,
    RA2_FAULT_OUTSIDE_LIMIT = 11,
    RA2_FAULT_ORDER = 12,
    RA2_FAULT_MEMORY = 13,
    RA2_FAULT_NO_CELL = 14,
    RA2_FAULT_OTHER_CLASS = 15,
    RA2_FAULT_OUTSIDE_FRAME = 16,
    RA2_FAULT_SHARED_UNIT = 17
};

/* The version of the library that this header is shipped with, as CHANGELOG.md counts. */
#define RA2_RELEASE "0.1.0"

/* 65536 times the version of the layouts, and how many calls this header declares, but for regalloc2_c_build. The shared library is named by the
   version of the layouts. */
#define RA2_VERSION 0x00020009u
uint32_t regalloc2_c_version(void);

/* Which library is linked: release, commit, and whether `rt lib` proved it, as in "0.1.0 1f2e3d4c, proved". Returns how many bytes that takes, without
   a zero at the end; at most `text_len` are written to `text`. The libraries of `make install` and `make dist` have this call; the archive in
   crates/regalloc2_c/out hasn't. */
size_t regalloc2_c_build(uint8_t *text, size_t text_len);

/* A status, or a fault's number, in English. Returns how many bytes that takes, without a zero at the end; at most
   `text_len` are written, and what is behind them stays as it was. */
size_t regalloc2_c_status_text(uint32_t status, uint8_t *text, size_t text_len);
size_t regalloc2_c_fault_text(uint32_t number, uint8_t *text, size_t text_len);

/* Allocates registers to a function, has the checker judge the output, and writes the result. */
uint32_t regalloc2_c_allocate(const uint32_t *words, size_t len, uint32_t *result, size_t result_len, size_t *needed);

/* The same for a function in JSON, as docs/INPUT.md has it; the text need not end in a zero. */
uint32_t regalloc2_c_allocate_json(const uint8_t *json, size_t len, uint32_t *result, size_t result_len, size_t *needed);

/* The same for a function in a text, as docs/TEXT.md has it, in UTF-8. An output in it isn't looked at. */
uint32_t regalloc2_c_allocate_text(const uint8_t *text, size_t len, uint32_t *result, size_t result_len, size_t *needed);

/* Allocates with all tests, among them that no path reads or passes a vreg before writing it, and without the
   checker: then its output needs none. */
uint32_t regalloc2_c_run(const uint32_t *words, size_t len, uint32_t *result, size_t result_len, size_t *needed);

/* Judges an output of a function, whose parts the caller keeps apart: the units of slots, moves of three words, the
   places of all operands, and for each instruction where its places begin. RA2_OK if the checker accepts it, and the
   places that it names are cells of their own; else RA2_FAULTS, or a status that says why nothing was judged. */
uint32_t regalloc2_c_judge(const uint32_t *words, size_t len, uint64_t num_spillslots, const uint32_t *moves, size_t moves_len,
                           const uint32_t *places, size_t places_len, const uint32_t *offsets, size_t offsets_len,
                           uint32_t *result, size_t result_len, size_t *needed);

/* RA2_OK if the checker accepts an output of a function, and the places that it names are cells of their own:
   registers of the machine, or slots of the frame that share no unit; else RA2_FAULTS, or a status that says why
   nothing was judged. */
uint32_t regalloc2_c_check(const uint32_t *words, size_t len, const uint32_t *output, size_t output_len);

/* The memory that the library asks for. `ok` is whether there is some. `p` is never null: where there is none it is
   any address. `align` is at most 16, and a `size` of 0 still asks for a place. `kept` is how many bytes of `p` were
   asked for; a refused rattle_realloc leaves `p` as it was. */
struct rattle_tried {
    bool ok;
    uint8_t *p;
};
struct rattle_tried rattle_alloc(size_t size, size_t align);
struct rattle_tried rattle_realloc(uint8_t *p, size_t kept, size_t size, size_t align);
void rattle_dealloc(uint8_t *p);

/* Words: classes, registers, virtual registers, operands and places. */
enum { RA2_INT = 0, RA2_FLOAT = 1, RA2_VECTOR = 2 };
enum { RA2_EARLY = 0, RA2_LATE = 1 };
enum { RA2_DEF = 0, RA2_USE = 1 };
enum {
    RA2_ANY = 0,
    RA2_REG = 1,
    RA2_STACK = 2,
    RA2_LIMIT = 16, /* and the limit's logarithm, 0 to 6 */
    RA2_REUSE = 32, /* and the operand's index, 0 to 31 */
    RA2_FIXED = 64  /* and the register's number, 0 to 63 */
};

enum { RA2_OP = 0, RA2_RETURN = 1, RA2_BRANCH = 2 };
enum { RA2_BY_LAST_UNIT = 1, RA2_SEVERAL_DEFS = 2 };

static inline uint32_t ra2_register(uint32_t class_, uint32_t number) { return 64 * class_ + number; }
static inline uint32_t ra2_vreg(uint32_t class_, uint32_t number) { return 4 * number + class_; }
static inline uint64_t ra2_operand(uint32_t class_, uint32_t number, uint32_t kind, uint32_t position, uint32_t constraint) {
    return (uint64_t)number | (uint64_t)(class_ | position << 2 | kind << 3 | constraint << 4) << 32;
}
static inline uint32_t ra2_in_register(uint32_t reg) { return 1u << 29 | reg; }
static inline uint32_t ra2_in_slot(uint32_t slot) { return 2u << 29 | slot; }

/* Vregs, operands and places in parts. A definition is late and a use early, if the name doesn't say otherwise. */
enum { RA2_PLACE_NONE = 0, RA2_PLACE_REGISTER = 1, RA2_PLACE_SLOT = 2 };
static inline uint32_t ra2_class_of_vreg(uint32_t vreg) { return vreg & 3; }
static inline uint32_t ra2_number_of_vreg(uint32_t vreg) { return vreg >> 2; }
static inline uint64_t ra2_def(uint32_t vreg, uint32_t constraint) { return ra2_operand(vreg & 3, vreg >> 2, RA2_DEF, RA2_LATE, constraint); }
static inline uint64_t ra2_use(uint32_t vreg, uint32_t constraint) { return ra2_operand(vreg & 3, vreg >> 2, RA2_USE, RA2_EARLY, constraint); }
static inline uint64_t ra2_early_def(uint32_t vreg, uint32_t constraint) { return ra2_operand(vreg & 3, vreg >> 2, RA2_DEF, RA2_EARLY, constraint); }
static inline uint64_t ra2_late_use(uint32_t vreg, uint32_t constraint) { return ra2_operand(vreg & 3, vreg >> 2, RA2_USE, RA2_LATE, constraint); }
static inline uint32_t ra2_vreg_of_operand(uint64_t operand) { return (uint32_t)operand << 2 | (uint32_t)(operand >> 32 & 3); }
static inline bool ra2_is_def(uint64_t operand) { return (operand >> 35 & 1) == RA2_DEF; }
static inline uint32_t ra2_place_kind(uint32_t place) { return place >> 29; }
static inline uint32_t ra2_place_number(uint32_t place) { return place & 0x1fffffff; } /* a register's index, or a slot's number */
static inline uint32_t ra2_class_of_register(uint32_t reg) { return reg >> 6; }
static inline uint32_t ra2_number_of_register(uint32_t reg) { return reg & 63; }

/* Words of functions: kinds by the number of a set, the logarithms of a slot's units, and registers added to the six words of a set. */
static inline uint32_t ra2_kind(uint32_t set, uint32_t what) { return set << 2 | what; }
static inline uint32_t ra2_sizes(uint32_t int_, uint32_t float_, uint32_t vector) { return int_ | float_ << 8 | vector << 16; }
static inline void ra2_add(uint32_t *set, uint32_t reg) { set[reg / 32] |= 1u << reg % 32; }

/* The header by index. The layout's number is RA2_LAYOUT. */
enum { RA2_LAYOUT = 2 };
enum {
    RA2_AT_LAYOUT = 0,
    RA2_AT_ENTRY = 1,
    RA2_AT_INSTS = 2,
    RA2_AT_BLOCKS = 3,
    RA2_AT_OPERANDS = 4,
    RA2_AT_SETS = 5,
    RA2_AT_EDGES = 6,
    RA2_AT_PREDS = 7,
    RA2_AT_PARAMS = 8,
    RA2_AT_ARGUMENTS = 9,
    RA2_AT_VREGS = 10,
    RA2_AT_LABELS = 11,
    RA2_AT_SLOTS = 12,
    RA2_AT_FLAGS = 13,
    RA2_AT_SIZES = 14,
    RA2_HEADER_WORDS = 15
};

/* The columns by number. */
enum {
    RA2_PREFERRED = 1,
    RA2_NON_PREFERRED = 2,
    RA2_SCRATCH = 3,
    RA2_SLOTS = 4,
    RA2_SETS = 5,
    RA2_KINDS = 6,
    RA2_OPERAND_ENDS = 7,
    RA2_OPERANDS = 8,
    RA2_INST_ENDS = 9,
    RA2_PRED_ENDS = 10,
    RA2_SUCC_ENDS = 11,
    RA2_PARAM_ENDS = 12,
    RA2_PREDS = 13,
    RA2_SUCCS = 14,
    RA2_PARAMS = 15,
    RA2_ARGUMENT_ENDS = 16,
    RA2_ARGUMENTS = 17,
    RA2_LABELS = 18,
    RA2_COLUMNS_END = 19
};

/* The index at which a column begins, from 1, of a function with that header; of RA2_COLUMNS_END how many words the
   function takes. */
static inline size_t ra2_column(const uint32_t *header, unsigned column) {
    const size_t insts = header[RA2_AT_INSTS], blocks = header[RA2_AT_BLOCKS], edges = header[RA2_AT_EDGES];
    const size_t widths[] = {
        RA2_HEADER_WORDS, 18, 18, 3, header[RA2_AT_SLOTS], 6 * (size_t)header[RA2_AT_SETS],
        insts, insts, 2 * (size_t)header[RA2_AT_OPERANDS],
        blocks, blocks, blocks, blocks, header[RA2_AT_PREDS], edges, header[RA2_AT_PARAMS],
        edges, header[RA2_AT_ARGUMENTS], 4 * (size_t)header[RA2_AT_LABELS],
    };
    size_t start = 0;
    for (unsigned k = 0; k < column; k++)
        start += widths[k];
    return start;
}

/* Another address in place of a null pointer, for memory of length 0. */
static inline const uint32_t *ra2_in(const uint32_t *words) {
    static const uint32_t unused = 0;
    return words ? words : &unused;
}
static inline const uint8_t *ra2_bytes_in(const uint8_t *bytes) {
    static const uint8_t unused = 0;
    return bytes ? bytes : &unused;
}
static inline uint32_t *ra2_out(uint32_t *words) {
    static uint32_t unused;
    return words ? words : &unused;
}
static inline uint8_t *ra2_bytes_out(uint8_t *bytes) {
    static uint8_t unused;
    return bytes ? bytes : &unused;
}

/* The calls, with pointers that may be null where their length is 0. */
#define regalloc2_c_status_text(status, text, text_len) regalloc2_c_status_text(status, ra2_bytes_out(text), text_len)
#define regalloc2_c_fault_text(number, text, text_len) regalloc2_c_fault_text(number, ra2_bytes_out(text), text_len)
#define regalloc2_c_allocate(words, len, result, result_len, needed) regalloc2_c_allocate(ra2_in(words), len, ra2_out(result), result_len, needed)
#define regalloc2_c_allocate_json(json, len, result, result_len, needed) \
    regalloc2_c_allocate_json(ra2_bytes_in(json), len, ra2_out(result), result_len, needed)
#define regalloc2_c_allocate_text(text, len, result, result_len, needed) \
    regalloc2_c_allocate_text(ra2_bytes_in(text), len, ra2_out(result), result_len, needed)
#define regalloc2_c_run(words, len, result, result_len, needed) regalloc2_c_run(ra2_in(words), len, ra2_out(result), result_len, needed)
#define regalloc2_c_judge(words, len, num_spillslots, moves, moves_len, places, places_len, offsets, offsets_len, result, result_len, needed) \
    regalloc2_c_judge(ra2_in(words), len, num_spillslots, ra2_in(moves), moves_len, ra2_in(places), places_len, ra2_in(offsets), offsets_len, \
                      ra2_out(result), result_len, needed)
#define regalloc2_c_check(words, len, output, output_len) regalloc2_c_check(ra2_in(words), len, ra2_in(output), output_len)

#ifdef __cplusplus
}
#endif
#endif
