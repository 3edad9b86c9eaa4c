/* Replays the list of crates/test_replay/stdin, from standard input, through the C functions, with every lent table and the lent list of
 * symbols compared whole, up to the first answer that differs. Inputs count from 0. A section goes through both decoders. The list
 * has no marks: those of proofs have to be 1, 2 or 3, and those past the count 0; nor has it the schema, which has to be the payload's. */
#include "falgnust.h"
#include <stdio.h>
#include <string.h>

enum { PAGE = 262144, ENTRIES = 65536, SYMBOLS = 65536, OLD = 0xa5 };

static uint8_t page[PAGE];
static uint64_t first[ENTRIES], second[ENTRIES], third[ENTRIES];
static uint8_t marks[ENTRIES];
static FalgnustDebugSymbol symbols[SYMBOLS];
static uint8_t families[ENTRIES];

/* The place in the page after what was compared, and whether all of it was the same. */
static size_t at, page_len;
static bool same;

static uint64_t little(size_t place, size_t width) {
    uint64_t value = 0;
    for (size_t i = width; i-- > 0;)
        value = value * 256 + (place + i < page_len ? page[place + i] : 0);
    return value;
}

static void number(uint64_t value, size_t width) {
    same = same && at + width <= page_len && little(at, width) == value;
    at += width;
}

static void bytes(const uint8_t *value, size_t len) {
    same = same && at + len <= page_len && memcmp(page + at, value, len) == 0;
    at += len;
}

static void table(const uint64_t *entries, size_t len, size_t count) {
    for (size_t i = 0; i < len; i++) {
        if (i < count)
            number(entries[i], 4);
        else
            same = same && entries[i] == 0;
    }
}

static void refusal(FalgnustRefusal refused) {
    number(refused.number, 4);
    number(refused.kind, 4);
    number(refused.offset, 8);
}

static void told_section(FalgnustSection s, size_t a, size_t b, size_t c) {
    if (s.accepted) {
        const uint64_t told[] = {0, s.epoch, s.policy_at, s.issuer_at, s.policy_chars, s.issuer_chars,
                                 s.propositions, s.proofs, s.witnesses, s.parents};
        for (size_t i = 0; i < sizeof told / sizeof *told; i++)
            number(told[i], 4);
    } else {
        refusal(s.refusal);
    }
    number(s.cursor, 8);
    bytes(s.source_set, 32);
    bytes(s.compiler_contract, 32);
    table(first, a, s.propositions);
    table(second, b, s.proofs);
    table(third, c, s.proofs);
}

static void old(size_t a, size_t b, size_t c) {
    memset(first, OLD, a * sizeof *first);
    memset(second, OLD, b * sizeof *second);
    memset(third, OLD, c * sizeof *third);
    memset(marks, OLD, c);
    memset(symbols, OLD, b * sizeof *symbols);
}

static void section(const uint8_t *input, size_t len, size_t cursor, size_t a, size_t b, size_t c) {
    size_t start = at;
    told_section(falgnust_decode_evr0_unmarked(input, len, cursor, first, a, second, b, third, c), a, b, c);
    at = start;
    old(a, b, c);
    FalgnustSection s = falgnust_decode_evr0_section(input, len, cursor, first, a, second, b, third, c, marks, c);
    told_section(s, a, b, c);
    same = same && s.schema == (s.accepted ? input[cursor + 8] + 256u * input[cursor + 9] : 0);
    for (size_t i = 0; i < c; i++)
        same = same && (i < s.proofs ? 1 <= marks[i] && marks[i] <= 3 : marks[i] == 0);
}

/* A block's answer, its tables and the list. */
static void told_block(FalgnustBlock k, const uint64_t *strings, size_t a, size_t b, const uint64_t *paths, size_t c, size_t d) {
    if (k.accepted) {
        const uint64_t told[] = {0, k.has_debug_section, k.has_ownership_section, k.has_signature, k.string_count,
            k.string_table_end_offset, k.debug_symbol_count, k.debug_symbols_start, k.path_count, k.parameter_count,
            k.families_start, k.instr_start_offset};
        for (size_t i = 0; i < sizeof told / sizeof *told; i++)
            number(told[i], 4);
    }
    table(strings, a, k.string_count);
    table(paths, c, k.path_count);
    bytes(families, k.parameter_count);
    for (size_t i = k.parameter_count; i < d; i++)
        same = same && families[i] == 0;
    for (size_t i = 0; i < b; i++) {
        if (i < k.debug_symbol_count) {
            number(symbols[i].pc, 4);
            number(symbols[i].line, 4);
            number(symbols[i].col, 4);
        } else {
            same = same && symbols[i].pc == 0 && symbols[i].line == 0 && symbols[i].col == 0;
        }
    }
}

static void block(const uint8_t *input, size_t len, size_t base, uint16_t revision, size_t a, size_t b, size_t c, size_t d) {
    FalgnustBlock k =
        falgnust_parse_string_table_debug_and_ownership(base, input, len, revision, symbols, b, first, a, third, c, families, d);
    if (!k.accepted)
        refusal(k.refusal);
    told_block(k, first, a, b, third, c, d);
}

/* The list is lent with room for 8,192 symbols; the lengths are those of functions, strings, paths and families. */
static void functions(const uint8_t *input, size_t len, size_t cursor, uint16_t revision, size_t a, size_t b, size_t c, size_t d) {
    memset(symbols, OLD, 8192 * sizeof *symbols);
    FalgnustFunctions f =
        falgnust_decode_functions(input, len, cursor, revision, symbols, 8192, first, a, second, b, third, c, families, d);
    if (f.accepted) {
        number(0, 4);
        number(f.functions, 4);
        number(f.cursor, 8);
    } else {
        refusal(f.refusal);
    }
    table(first, a, f.functions);
    if (f.functions > 0)
        number(f.last_code, 4);
    same = same && f.last.accepted == (f.functions > 0);
    told_block(f.last, second, b, 8192, third, c, d);
}

/* The entry at `at`. */
static void entry(void) {
    size_t start = at + 23, len = little(at + 19, 4), origin = little(at + 3, 8);
    size_t a = little(at + 11, 2), b = little(at + 13, 2), c = little(at + 15, 2), d = little(at + 17, 2);
    uint8_t decoder = page[at];
    uint16_t revision = (uint16_t)little(at + 1, 2);
    same = start + len <= page_len;
    at = start + len;
    if (!same)
        return;
    old(a, b, c);
    memset(families, OLD, d);
    if (decoder == 0)
        section(page + start, len, origin, a, b, c);
    else if (decoder == 2)
        functions(page + start, len, origin, revision, a, b, c, d);
    else
        block(page + start, len, origin, revision, a, b, c, d);
}

int main(void) {
    size_t agreed = 0;
    while ((page_len = fread(page, 1, PAGE, stdin)) > 0) {
        for (at = 0; at < page_len && page[at] != 255; agreed++) {
            entry();
            if (!same)
                return printf("%zu answers agree, not that of input %zu\n", agreed, agreed), 1;
        }
    }
    printf("%zu answers agree\n", agreed);
    return 0;
}
