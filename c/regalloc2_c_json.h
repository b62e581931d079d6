/* Writes functions and outputs in words as the JSON of docs/INPUT.md, which the programs ra2 and ra2_text read: `ra2_text text FILE` makes a text
   of it, and `ra2_text svg FILE` a picture. It is for reports of what a call refuses or finds wrong. All is `static inline`, for C99 and C++11. */
#ifndef REGALLOC2_C_JSON_H
#define REGALLOC2_C_JSON_H
#include "regalloc2_c_tools.h"
#include <inttypes.h>
#include <stdio.h>
#ifdef __cplusplus
extern "C" {
#endif

/* Whether ends don't fall, and the last of them, or 0, is `members`. */
static inline bool ra2_are_ends_(const uint32_t *ends, uint32_t count, uint32_t members) {
    uint32_t last = 0;
    for (uint32_t k = 0; k < count; k++) {
        if (ends[k] < last)
            return false;
        last = ends[k];
    }
    return last == members;
}

/* Whether words are a header and columns whose ends and sets of clobbers are within them. */
static inline bool ra2_are_columns_(const uint32_t *w, size_t len) {
    if (len < RA2_HEADER_WORDS || w[RA2_AT_LAYOUT] != RA2_LAYOUT || len != ra2_column(w, RA2_COLUMNS_END))
        return false;
    for (uint32_t k = 0; k < w[RA2_AT_INSTS]; k++)
        if (w[ra2_column(w, RA2_KINDS) + k] >> 2 > w[RA2_AT_SETS])
            return false;
    return ra2_are_ends_(w + ra2_column(w, RA2_OPERAND_ENDS), w[RA2_AT_INSTS], w[RA2_AT_OPERANDS])
        && ra2_are_ends_(w + ra2_column(w, RA2_INST_ENDS), w[RA2_AT_BLOCKS], w[RA2_AT_INSTS])
        && ra2_are_ends_(w + ra2_column(w, RA2_PRED_ENDS), w[RA2_AT_BLOCKS], w[RA2_AT_PREDS])
        && ra2_are_ends_(w + ra2_column(w, RA2_SUCC_ENDS), w[RA2_AT_BLOCKS], w[RA2_AT_EDGES])
        && ra2_are_ends_(w + ra2_column(w, RA2_PARAM_ENDS), w[RA2_AT_BLOCKS], w[RA2_AT_PARAMS])
        && ra2_are_ends_(w + ra2_column(w, RA2_ARGUMENT_ENDS), w[RA2_AT_EDGES], w[RA2_AT_ARGUMENTS]);
}

/* A list of numbers, or of lists of `width` numbers if `width` isn't 0. */
static inline void ra2_put_list_(FILE *to, const uint32_t *numbers, size_t count, size_t width) {
    fputc('[', to);
    for (size_t k = 0; k < count; k++) {
        fputs(k ? ", " : "", to);
        if (width)
            ra2_put_list_(to, numbers + k * width, width, 0);
        else
            fprintf(to, "%" PRIu32, numbers[k]);
    }
    fputc(']', to);
}

/* For each member of a column of ends the list of its numbers. */
static inline void ra2_put_lists_(FILE *to, const uint32_t *ends, uint32_t count, const uint32_t *numbers, uint32_t first) {
    fputc('[', to);
    for (uint32_t k = 0; k < count; k++) {
        fputs(k ? ", " : "", to);
        ra2_put_list_(to, numbers + first, ends[k] - first, 0);
        first = ends[k];
    }
    fputc(']', to);
}

static inline void ra2_put_set_(FILE *to, const uint32_t *set) {
    const char *separator = "[";
    for (uint32_t reg = 0; reg < 192; reg++)
        if (set[reg / 32] >> reg % 32 & 1) {
            fprintf(to, "%s%" PRIu32, separator, reg);
            separator = ", ";
        }
    fputs(*separator == '[' ? "[]" : "]", to);
}

static inline void ra2_put_machine_(FILE *to, const uint32_t *w) {
    static const char *const names[] = {"{\"preferred_regs_by_class\": ", ", \"non_preferred_regs_by_class\": "};
    const uint32_t *const sets = w + ra2_column(w, RA2_PREFERRED), *const scratch = w + ra2_column(w, RA2_SCRATCH);
    for (int k = 0; k < 6; k++) {
        fputs(k % 3 ? ", " : names[k / 3], to);
        fputs(k % 3 ? "" : "[", to);
        ra2_put_set_(to, sets + 6 * k);
        fputs(k % 3 == 2 ? "]" : "", to);
    }
    fputs(", \"scratch_by_class\": ", to);
    for (int k = 0; k < 3; k++)
        if (scratch[k])
            fprintf(to, "%s%" PRIu32, k ? ", " : "[", scratch[k] - 1);
        else
            fputs(k ? ", null" : "[null", to);
    fputs("], \"fixed_stack_slots\": ", to);
    ra2_put_list_(to, w + ra2_column(w, RA2_SLOTS), w[RA2_AT_SLOTS], 0);
    fputc('}', to);
}

static inline void ra2_put_inst_(FILE *to, uint32_t kind, const uint32_t *operands, size_t count, const uint32_t *sets) {
    static const char *const ops[] = {"Op", "Ret", "Branch", "?"};
    static const uint32_t none[6] = {0, 0, 0, 0, 0, 0};
    fprintf(to, "{\"op\": \"%s\", \"operands\": [", ops[kind & 3]);
    for (size_t k = 0; k < count; k++)
        fprintf(to, "%s%" PRIu64, k ? ", " : "", operands[2 * k] | (uint64_t)operands[2 * k + 1] << 32);
    fputs("], \"clobbers\": ", to);
    ra2_put_set_(to, kind >> 2 ? sets + 6 * ((kind >> 2) - 1) : none);
    fputc('}', to);
}

static inline void ra2_put_insts_(FILE *to, const uint32_t *w) {
    const uint32_t *const kinds = w + ra2_column(w, RA2_KINDS), *const ends = w + ra2_column(w, RA2_OPERAND_ENDS);
    const uint32_t *const operands = w + ra2_column(w, RA2_OPERANDS), *const sets = w + ra2_column(w, RA2_SETS);
    fputc('[', to);
    for (uint32_t k = 0, first = 0; k < w[RA2_AT_INSTS]; first = ends[k++]) {
        fputs(k ? ", " : "", to);
        ra2_put_inst_(to, kinds[k], operands + 2 * (size_t)first, ends[k] - first, sets);
    }
    fputc(']', to);
}

/* For each block its first instruction and one past its last, and then for each block and edge the arguments. */
static inline void ra2_put_blocks_(FILE *to, const uint32_t *w) {
    fputc('[', to);
    for (uint32_t block = 0; block < w[RA2_AT_BLOCKS]; block++) {
        uint32_t first, end;
        ra2_block_insts(w, block, &first, &end);
        fprintf(to, "%s[%" PRIu32 ", %" PRIu32 "]", block ? ", " : "", first, end);
    }
    fputs("], \"block_params_out\": [", to);
    const uint32_t *const edges = w + ra2_column(w, RA2_SUCC_ENDS), *const ends = w + ra2_column(w, RA2_ARGUMENT_ENDS);
    for (uint32_t block = 0, edge = 0; block < w[RA2_AT_BLOCKS]; edge = edges[block++]) {
        fputs(block ? ", " : "", to);
        ra2_put_lists_(to, ends + edge, edges[block] - edge, w + ra2_column(w, RA2_ARGUMENTS), edge ? ends[edge - 1] : 0);
    }
    fputc(']', to);
}

static inline void ra2_put_function_(FILE *to, const uint32_t *w) {
    static const struct {
        const char *name;
        unsigned ends, members;
    } lists[] = {{"preds", RA2_PRED_ENDS, RA2_PREDS}, {"succs", RA2_SUCC_ENDS, RA2_SUCCS}, {"params_in", RA2_PARAM_ENDS, RA2_PARAMS}};
    const uint32_t sizes = w[RA2_AT_SIZES], flags = w[RA2_AT_FLAGS];
    fputs("{\"machine_env\": ", to);
    ra2_put_machine_(to, w);
    fprintf(to, ", \"entry_block\": %" PRIu32 ", \"insts\": ", w[RA2_AT_ENTRY]);
    ra2_put_insts_(to, w);
    fputs(", \"blocks\": ", to);
    ra2_put_blocks_(to, w);
    for (size_t k = 0; k < 3; k++) {
        fprintf(to, ", \"block_%s\": ", lists[k].name);
        ra2_put_lists_(to, w + ra2_column(w, lists[k].ends), w[RA2_AT_BLOCKS], w + ra2_column(w, lists[k].members), 0);
    }
    fprintf(to, ", \"num_vregs\": %" PRIu32 ", \"debug_value_labels\": ", w[RA2_AT_VREGS]);
    ra2_put_list_(to, w + ra2_column(w, RA2_LABELS), w[RA2_AT_LABELS], 4);
    fprintf(to, ", \"spillslot_size\": [%" PRIu64 ", %" PRIu64 ", %" PRIu64 "]", (uint64_t)1 << (sizes & 63), (uint64_t)1 << (sizes >> 8 & 63),
            (uint64_t)1 << (sizes >> 16 & 63));
    fprintf(to, ", \"multi_spillslot_named_by_last_slot\": %s", flags & RA2_BY_LAST_UNIT ? "true" : "false");
    fprintf(to, ", \"allow_multiple_vreg_defs\": %s}", flags & RA2_SEVERAL_DEFS ? "true" : "false");
}

static inline void ra2_put_output_(FILE *to, const struct ra2_output *output) {
    fprintf(to, "{\"num_spillslots\": %" PRIu64 ", \"edits\": ", output->num_slots);
    ra2_put_list_(to, output->moves, output->num_moves, 3);
    fputs(", \"allocs\": ", to);
    ra2_put_list_(to, output->places, output->num_places, 0);
    fputs(", \"inst_alloc_offsets\": ", to);
    ra2_put_list_(to, output->offsets, output->num_insts, 0);
    fputs(", \"debug_locations\": ", to);
    ra2_put_list_(to, output->locations, output->num_locations, 4);
    fputc('}', to);
}

/* Writes a function, or an array of it and an output, which may be null. Returns whether the words are a header and columns, and all is written. */
static inline bool ra2_write_json(FILE *to, const uint32_t *words, size_t len, const struct ra2_output *output) {
    if (!ra2_are_columns_(words, len))
        return false;
    fputs(output ? "[" : "", to);
    ra2_put_function_(to, words);
    if (output) {
        fputs(",\n", to);
        ra2_put_output_(to, output);
        fputc(']', to);
    }
    fputc('\n', to);
    return !ferror(to);
}

#ifdef __cplusplus
}
#endif
#endif
