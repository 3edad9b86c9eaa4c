/* The depth of each proof of a section by rounds, beside the decoder's.
 *
 *   rounds SECTION      ("-" is standard input) */
#include "input.h"

#include <inttypes.h>
#include <stdio.h>
#include <stdlib.h>

int main(int argc, char **argv) {
    if (argc != 2)
        return fputs("usage: rounds SECTION\n", stderr), 2;
    Input input = read_input(argv[1]);
    size_t most_propositions = input.len / 15, most_proofs = input.len / 35;
    uint64_t *propositions = room_for(most_propositions, sizeof(uint64_t));
    uint64_t *proofs = room_for(most_proofs, sizeof(uint64_t));
    uint64_t *rounds = room_for(most_proofs, sizeof(uint64_t));
    uint64_t *depths = room_for(most_proofs, sizeof(uint64_t));
    FalgnustRounds marked = falgnust_depth_by_rounds(
        input.bytes, input.len, 0, propositions, most_propositions, proofs, most_proofs, rounds, most_proofs);
    FalgnustSection decoded = falgnust_decode_evr0_unmarked(
        input.bytes, input.len, 0, propositions, most_propositions, proofs, most_proofs, depths, most_proofs);
    if (marked.accepted) {
        printf("%zu proofs are marked, up to place %zu\n", marked.proofs, marked.cursor);
        for (size_t i = 0; i < marked.proofs; i++)
            printf("proof %zu: round %" PRIu64 ", depth %" PRIu64 "\n", i, rounds[i], depths[i]);
    } else {
        printf("refused %u at %zu\n", marked.refusal.number, marked.refusal.offset);
    }
    if (!decoded.accepted)
        printf("the decoder: refused %u at %zu\n", decoded.refusal.number, decoded.refusal.offset);
    free(input.bytes);
    free(propositions);
    free(proofs);
    free(rounds);
    free(depths);
    return !marked.accepted;
}
