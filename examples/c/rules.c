/* Prints a table of rules, and a section by them: each proof with its mark, and whether each proposition is authorised.
 *
 *   rules RULES [SECTION]      ("-" is standard input) */
#include "input.h"

#include <inttypes.h>
#include <stdio.h>
#include <stdlib.h>

/* Each rule of a table that was loaded: its name is a text, and its four numbers are the bytes behind it. */
static void print_rules(Input rules, size_t count) {
    size_t at = 1;
    for (size_t i = 0; i < count; i++) {
        FalgnustText name = falgnust_read_text(rules.bytes, rules.len, at);
        const uint8_t *numbers = rules.bytes + name.next;
        printf("rule %zu: ", i);
        print_text(rules.bytes + name.start, name.len);
        printf(", witnesses %u, parents %u, operation %u", numbers[0], numbers[1], numbers[2]);
        if (numbers[3] < 2)
            printf(", polarity %u", numbers[3]);
        printf("\n");
        at = name.next + 4;
    }
}

static int print_section(Input rules, Input input) {
    size_t most_propositions = input.len / 15;
    size_t most_proofs = input.len / 35;
    uint64_t *propositions = room_for(most_propositions, sizeof(uint64_t));
    uint64_t *proofs = room_for(most_proofs, sizeof(uint64_t));
    uint64_t *depths = room_for(most_proofs, sizeof(uint64_t));
    uint8_t *marks = room_for(most_proofs, sizeof(uint8_t));
    FalgnustSection section = falgnust_decode_evr0_section_by_rules(
        rules.bytes, rules.len, input.bytes, input.len, 0,
        propositions, most_propositions, proofs, most_proofs, depths, most_proofs, marks, most_proofs);
    int status = section.accepted ? 0 : refused(section.refusal);
    const uint8_t *payload = input.bytes + 8;
    for (size_t i = 0; i < section.proofs; i++) {
        FalgnustProof p = falgnust_read_proof(payload, section.cursor - 8, proofs[i]);
        printf("proof %" PRIu32 ": proposition %" PRIu32 ", ", p.proof_id, p.proposition_index);
        print_text(payload + p.rule_id.start, p.rule_id.len);
        printf(", depth %" PRIu64 ", mark %u\n", depths[i], marks[i]);
    }
    /* The section is decoded anew for each question, and fills the tables as before. */
    for (uint32_t i = 0; i < section.propositions; i++) {
        FalgnustAuthorised answer = falgnust_authorised_by_rules(
            rules.bytes, rules.len, input.bytes, input.len, 0, i,
            propositions, most_propositions, proofs, most_proofs, depths, most_proofs, marks, most_proofs);
        printf("proposition %" PRIu32 " is %sauthorised\n", i, answer.authorised ? "" : "not ");
    }
    free(propositions);
    free(proofs);
    free(depths);
    free(marks);
    return status;
}

int main(int count, char **words) {
    if (count < 2 || count > 3) {
        fprintf(stderr, "usage: rules RULES [SECTION]\n");
        return 2;
    }
    Input rules = read_input(words[1]);
    FalgnustRules loaded = falgnust_load_rules(rules.bytes, rules.len);
    int status = loaded.accepted ? 0 : refused(loaded.refusal);
    print_rules(rules, loaded.count);
    if (status == 0 && count == 3) {
        Input input = read_input(words[2]);
        status = print_section(rules, input);
        free(input.bytes);
    }
    free(rules.bytes);
    return status;
}
