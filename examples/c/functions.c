/* Prints the functions of a file from a cursor on: names, places and lengths, the strings of each block, and where its instructions start.
 *
 *   functions FILE CURSOR REVISION      ("-" is standard input) */
#include "input.h"

#include <stdio.h>
#include <stdlib.h>

/* As many as there can be, so that no lent table is too short. */
enum { MOST_FUNCTIONS = 1024, MOST_SYMBOLS = 8192, MOST_STRINGS = 256, MOST_PATHS = 65535, MOST_FAMILIES = 4096 };

typedef struct Lent {
    FalgnustDebugSymbol *symbols;
    uint64_t *functions, *strings, *paths;
    uint8_t *families;
} Lent;

static void print_head(const Input *file, size_t start, FalgnustFunction f) {
    printf("function at %zu: \"", start);
    print_text(file->bytes + f.name.start, f.name.len);
    printf("\", characters %zu, block at %zu, length %zu\n", f.name.chars, f.code_offset, f.code_len);
}

/* The block of a function, which was accepted with its file, by itself. */
static void print_block(const Input *file, uint16_t revision, FalgnustFunction f, Lent lent) {
    const uint8_t *code = file->bytes + f.code_offset;
    FalgnustBlock b = falgnust_parse_string_table_debug_and_ownership(
        f.code_offset, code, f.code_len, revision, lent.symbols, MOST_SYMBOLS, lent.strings, MOST_STRINGS, lent.paths, MOST_PATHS,
        lent.families, MOST_FAMILIES);
    for (size_t i = 0; i < b.string_count; i++) {
        FalgnustText text = falgnust_read_string(code, f.code_len, lent.strings[i]);
        printf("  string %zu: \"", i);
        print_text(code + text.start, text.len);
        printf("\"\n");
    }
    printf("  symbols %zu, paths %zu, ", b.debug_symbol_count, b.path_count);
    if (b.has_signature)
        printf("parameters %zu, ", b.parameter_count);
    printf("instructions at %zu\n", b.instr_start_offset);
}

static int list(const Input *file, size_t cursor, uint16_t revision, Lent lent) {
    FalgnustFunctions all = falgnust_decode_functions(
        file->bytes, file->len, cursor, revision, lent.symbols, MOST_SYMBOLS, lent.functions, MOST_FUNCTIONS,
        lent.strings, MOST_STRINGS, lent.paths, MOST_PATHS,
        lent.families, MOST_FAMILIES);
    if (!all.accepted)
        return refused(all.refusal);
    for (size_t i = 0; i < all.functions; i++) {
        FalgnustFunction f = falgnust_read_function(file->bytes, file->len, lent.functions[i]);
        print_head(file, lent.functions[i], f);
        print_block(file, revision, f, lent);
    }
    printf("%zu functions, cursor %zu\n", all.functions, all.cursor);
    return 0;
}

int main(int count, char **words) {
    if (count != 4) {
        fprintf(stderr, "usage: functions FILE CURSOR REVISION\n");
        return 2;
    }
    Input file = read_input(words[1]);
    Lent lent = {
        room_for(MOST_SYMBOLS, sizeof(FalgnustDebugSymbol)),
        room_for(MOST_FUNCTIONS, sizeof(uint64_t)),
        room_for(MOST_STRINGS, sizeof(uint64_t)),
        room_for(MOST_PATHS, sizeof(uint64_t)),
        room_for(MOST_FAMILIES, sizeof(uint8_t)),
    };
    int status = list(&file, number_in(words[2], SIZE_MAX), (uint16_t)number_in(words[3], UINT16_MAX), lent);
    free(file.bytes);
    free(lent.symbols);
    free(lent.functions);
    free(lent.strings);
    free(lent.paths);
    free(lent.families);
    return status;
}
