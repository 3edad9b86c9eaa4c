/* Writes a section by column, prints the columns, and takes them back; a byte of the columns may be changed between.
 *
 *   columns SECTION [PLACE BYTE]      ("-" is standard input) */
#include "input.h"

#include <stdio.h>
#include <stdlib.h>
#include <string.h>

static void print_columns(const uint8_t *bytes, size_t len) {
    for (size_t i = 0; i < len; i++)
        printf("%s%02x%s", i % 16 == 0 ? "  " : " ", bytes[i], i % 16 == 15 || i + 1 == len ? "\n" : "");
}

int main(int count, char **words) {
    if (count != 2 && count != 4) {
        fprintf(stderr, "usage: columns SECTION [PLACE BYTE]\n");
        return 2;
    }
    Input input = read_input(words[1]);
    /* Enough for the section and for its columns; a section is part of the file, from its first byte on. */
    size_t most_propositions = input.len / 15;
    size_t most_proofs = input.len / 35;
    size_t most_columns = input.len + input.len / 4;
    uint64_t *propositions = room_for(most_propositions, sizeof(uint64_t));
    uint64_t *proofs = room_for(most_proofs, sizeof(uint64_t));
    uint64_t *depths = room_for(most_proofs, sizeof(uint64_t));
    uint8_t *columns = room_for(most_columns, 1);
    uint8_t *section = room_for(input.len, 1);
    FalgnustColumns written = falgnust_write_columns(
        input.bytes, input.len, 0, propositions, most_propositions, proofs, most_proofs, depths, most_proofs, columns, most_columns);
    int status = written.accepted ? 0 : refused(written.refusal);
    if (written.accepted) {
        printf("columns: %zu bytes\n", written.length);
        if (count == 2)
            print_columns(columns, written.length);
        else
            columns[number_in(words[2], written.length - 1)] = (uint8_t)number_in(words[3], 255);
        FalgnustColumns taken = falgnust_take_columns(
            columns, written.length, propositions, most_propositions, proofs, most_proofs, depths, most_proofs, section, input.len);
        status = taken.accepted ? 0 : refused(taken.refusal);
        if (taken.accepted)
            printf("taken back: %zu bytes, %s\n", taken.length, memcmp(section, input.bytes, taken.length) == 0 ? "the same" : "others");
    }
    free(propositions);
    free(proofs);
    free(depths);
    free(columns);
    free(section);
    free(input.bytes);
    return status;
}
