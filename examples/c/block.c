/* Prints a function's block: its strings, debug symbols and paths, its parameters, and where its instructions start. With WORDS, the same by the words
 * of its records, for which so much room is lent.
 *
 *   block FILE REVISION [WORDS]      ("-" is standard input) */
#include "input.h"

#include <inttypes.h>
#include <stdio.h>
#include <stdlib.h>

/* As many as there can be, so that no lent table is too short. */
enum { MOST_SYMBOLS = 8192, MOST_STRINGS = 256, MOST_PATHS = 65535, MOST_FAMILIES = 4096 };

static void print_string(const Input *block, size_t number, size_t at) {
    FalgnustText text = falgnust_read_string(block->bytes, block->len, at);
    printf("string %zu: \"", number);
    print_text(block->bytes + text.start, text.len);
    printf("\", characters %zu\n", text.chars);
}

static void print_symbol(size_t number, FalgnustDebugSymbol s) {
    printf("symbol %zu: pc %zu, line %" PRIu32 ", column %" PRIu16 "\n", number, s.pc, s.line, s.col);
}

static void print_head(size_t number, FalgnustEvent event, uint32_t root) {
    static const char *const events[] = {
        "borrow", "borrow on frame entry", "borrow at store site", "write", "write at store site", "write at record site",
    };
    printf("path %zu: %s", number, events[event.event]);
    if (event.event == FALGNUST_BORROW_STORE_SITE || event.event > FALGNUST_WRITE)
        printf(" %" PRIu32, event.site);
    printf(", root %" PRIu32 "\n", root);
}

static void print_path(const Input *block, uint16_t revision, size_t number, size_t at) {
    FalgnustPath p = falgnust_read_path(block->bytes, block->len, at, revision);
    print_head(number, p.event, p.root_symbol_id);
    size_t component_at = p.components_start;
    for (uint16_t i = 0; i < p.component_count; i++) {
        FalgnustComponent c = falgnust_read_component(block->bytes, block->len, component_at, revision, block->bytes[at]);
        print_component(c.component);
        component_at = c.next;
    }
}

static void print_family(size_t number, uint8_t family) {
    static const char *const families[] = {
        "", "quad", "bool", "text", "sequence", "map", "closure", "i32", "u32", "fx", "f64", "tuple", "record", "adt", "unit", "bytes",
    };
    printf("parameter %zu: %s\n", number, families[family]);
}

/* A path by its words, and the words after it. */
static const uint64_t *print_path_words(size_t number, const uint64_t *words) {
    print_head(number, (FalgnustEvent){(uint8_t)words[0], (uint32_t)words[1]}, (uint32_t)words[2]);
    const uint64_t *end = words + 4 + words[3];
    for (words += 4; words < end; words++)
        print_component((FalgnustParts){*words & 3, (uint32_t)(*words >> 2), (uint16_t)(*words >> 34)});
    return end;
}

static int list_words(const Input *block, uint16_t revision, uint64_t *words, size_t room) {
    FalgnustBlockWords answer = falgnust_block_words(0, block->bytes, block->len, revision, words, room);
    FalgnustBlock b = answer.block;
    if (!b.accepted)
        return refused(b.refusal);
    printf("words: %zu\n", answer.words);
    const uint64_t *next = words;
    for (size_t i = 0; i < b.string_count; i++, next += 2) {
        printf("string %zu: \"", i);
        print_text(block->bytes + next[0], next[1]);
        printf("\"\n");
    }
    for (size_t i = 0; i < b.debug_symbol_count; i++, next += 3)
        print_symbol(i, (FalgnustDebugSymbol){next[0], (uint32_t)next[1], (uint16_t)next[2]});
    for (size_t i = 0; i < b.path_count; i++)
        next = print_path_words(i, next);
    if (!b.has_signature)
        printf("no signature\n");
    for (size_t i = 0; i < b.parameter_count; i++)
        print_family(i, block->bytes[b.families_start + i]);
    printf("instructions at %zu\n", b.instr_start_offset);
    return 0;
}

static int list(const Input *block, uint16_t revision, FalgnustDebugSymbol *symbols, uint64_t *strings, uint64_t *paths, uint8_t *families) {
    FalgnustBlock b = falgnust_parse_string_table_debug_and_ownership(
        0, block->bytes, block->len, revision, symbols, MOST_SYMBOLS, strings, MOST_STRINGS, paths, MOST_PATHS,
        families, MOST_FAMILIES);
    if (!b.accepted)
        return refused(b.refusal);
    for (size_t i = 0; i < b.string_count; i++)
        print_string(block, i, strings[i]);
    for (size_t i = 0; i < b.debug_symbol_count; i++)
        print_symbol(i, symbols[i]);
    for (size_t i = 0; i < b.path_count; i++)
        print_path(block, revision, i, paths[i]);
    if (!b.has_signature)
        printf("no signature\n");
    for (size_t i = 0; i < b.parameter_count; i++)
        print_family(i, families[i]);
    printf("instructions at %zu\n", b.instr_start_offset);
    return 0;
}

static int by_words(const Input *block, uint16_t revision, size_t room) {
    uint64_t *words = room_for(room, sizeof(uint64_t));
    int status = list_words(block, revision, words, room);
    free(words);
    return status;
}

static int by_tables(const Input *block, uint16_t revision) {
    FalgnustDebugSymbol *symbols = room_for(MOST_SYMBOLS, sizeof(FalgnustDebugSymbol));
    uint64_t *strings = room_for(MOST_STRINGS, sizeof(uint64_t));
    uint64_t *paths = room_for(MOST_PATHS, sizeof(uint64_t));
    uint8_t *families = room_for(MOST_FAMILIES, sizeof(uint8_t));
    int status = list(block, revision, symbols, strings, paths, families);
    free(symbols);
    free(strings);
    free(paths);
    free(families);
    return status;
}

int main(int count, char **words) {
    if (count != 3 && count != 4) {
        fprintf(stderr, "usage: block FILE REVISION [WORDS]\n");
        return 2;
    }
    Input block = read_input(words[1]);
    uint16_t revision = (uint16_t)number_in(words[2], UINT16_MAX);
    int status = count == 3 ? by_tables(&block, revision) : by_words(&block, revision, number_in(words[3], 1 << 20));
    free(block.bytes);
    return status;
}
