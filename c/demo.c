/* Allocates registers to a function, and prints it with its moves and places. The function: block0 defines v0 and goes to block1(v0);
   block1(v1) reads v1 and returns. `demo FILE` does the same for a function in JSON (FILE.json) or in a text. */
#include "regalloc2_c_tools.h"
#include <errno.h>
#include <stdio.h>

static void print_place(uint32_t place) {
    const uint32_t number = ra2_place_number(place);
    switch (ra2_place_kind(place)) {
    case RA2_PLACE_REGISTER: printf("p%u%c", (unsigned)ra2_number_of_register(number), "ifv"[ra2_class_of_register(number)]); break;
    case RA2_PLACE_SLOT: printf("stack%u", (unsigned)number); break;
    default: printf("none");
    }
}

/* Prints the moves and instructions of a range in the order in which they run. */
static void print_insts(const struct ra2_output *output, uint32_t first, uint32_t end) {
    struct ra2_listing listing = ra2_list_insts(output, first, end);
    for (struct ra2_item item; ra2_next(&listing, &item);) {
        if (item.is_move) {
            printf("  ");
            print_place(item.from);
            printf(" -> ");
            print_place(item.to);
        } else {
            printf("  inst%u", (unsigned)item.inst);
        }
        for (size_t k = 0; k < item.count; k++) {
            printf(" ");
            print_place(item.places[k]);
        }
        printf("\n");
    }
}

/* The function, for a machine with the integer registers p0i and p1i. */
static int build(struct ra2_builder *b, const uint32_t **words, size_t *len) {
    ra2_add_preferred(b, ra2_register(RA2_INT, 0));
    ra2_add_preferred(b, ra2_register(RA2_INT, 1));
    const uint32_t v0 = ra2_new_vreg(b, RA2_INT), v1 = ra2_new_vreg(b, RA2_INT);
    const uint64_t definition = ra2_def(v0, RA2_REG), use = ra2_use(v1, RA2_REG);
    ra2_add_block(b, NULL, 0);
    ra2_add_inst(b, RA2_OP, &definition, 1);
    ra2_add_inst(b, RA2_BRANCH, NULL, 0);
    ra2_add_edge(b, 1, &v0, 1);
    ra2_add_block(b, &v1, 1);
    ra2_add_inst(b, RA2_RETURN, &use, 1);
    return ra2_finish(b, words, len);
}

/* Says why there is no output. */
static int fail(const char *what, uint32_t status, const struct ra2_result *result) {
    char text[RA2_TEXT_ROOM];
    fprintf(stderr, "demo: %s: %s", what, ra2_status_text(status, text, sizeof text));
    if (status == RA2_BAD_TEXT)
        fprintf(stderr, ", line %u, column %u", (unsigned)result->words[0], (unsigned)result->words[1]);
    fprintf(stderr, "\n");
    return 1;
}

/* Allocates registers to the function above, and prints it block by block. */
static int demonstrate(struct ra2_builder *builder, struct ra2_result *result) {
    struct ra2_output output;
    const uint32_t *words;
    size_t len;
    const int error = build(builder, &words, &len);
    if (error) {
        fprintf(stderr, "demo: %s\n", ra2_build_text(error));
        return 1;
    }
    const uint32_t status = ra2_run(words, len, result);
    if (status || !ra2_read_output(&output, result->words, result->len))
        return fail("the function", status, result);
    printf("slots %llu\n", (unsigned long long)output.num_slots);
    for (uint32_t block = 0; block < words[RA2_AT_BLOCKS]; block++) {
        uint32_t first, end;
        ra2_block_insts(words, block, &first, &end);
        printf("block%u:\n", (unsigned)block);
        print_insts(&output, first, end);
    }
    return 0;
}

/* Allocates registers to the function in a file, and prints its instructions. */
static int demonstrate_file(const char *name, struct ra2_result *result) {
    static char bytes[1 << 20];
    const char *const end = strrchr(name, '.');
    struct ra2_output output;
    FILE *file = fopen(name, "rb");
    if (!file) {
        fprintf(stderr, "demo: %s: %s\n", name, strerror(errno));
        return 1;
    }
    const size_t len = fread(bytes, 1, sizeof bytes, file);
    fclose(file);
    const bool is_json = end && strcmp(end, ".json") == 0;
    const uint32_t status = is_json ? ra2_allocate_json(bytes, len, result) : ra2_allocate_text(bytes, len, result);
    if (status || !ra2_read_output(&output, result->words, result->len))
        return fail(name, status, result);
    printf("slots %llu\n", (unsigned long long)output.num_slots);
    print_insts(&output, 0, output.num_insts);
    return 0;
}

int main(int argc, char **argv) {
    struct ra2_builder builder;
    struct ra2_result result = {NULL, 0, 0};
    ra2_begin(&builder, NULL, 0);
    const int status = argc > 1 ? demonstrate_file(argv[1], &result) : demonstrate(&builder, &result);
    ra2_free(&builder);
    ra2_free_result(&result);
    return status;
}
