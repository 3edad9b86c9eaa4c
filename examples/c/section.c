/* Prints an evidence section: its schema, its propositions, and its proofs with depth, mark, witnesses and parents. For each proof that is named after
 * the file, the way down to its witness, and whether its proposition is authorised.
 *
 *   section FILE [PROOF..]      ("-" is standard input) */
#include "input.h"

#include <inttypes.h>
#include <stdio.h>
#include <stdlib.h>

/* A section's bytes, and the tables that are lent to decode it. They are long enough for whatever the bytes say. */
typedef struct Source {
    Input input;
    uint64_t *propositions;
    uint64_t *proofs;
    uint64_t *depths;
    uint8_t *marks;
    size_t most_propositions;
    size_t most_proofs;
} Source;

static Source open_source(const char *name) {
    Input input = read_input(name);
    size_t most_propositions = input.len / 15;
    size_t most_proofs = input.len / 35;
    Source s = {
        input,
        room_for(most_propositions, sizeof(uint64_t)),
        room_for(most_proofs, sizeof(uint64_t)),
        room_for(most_proofs, sizeof(uint64_t)),
        room_for(most_proofs, sizeof(uint8_t)),
        most_propositions,
        most_proofs,
    };
    return s;
}

static void close_source(Source *s) {
    free(s->input.bytes);
    free(s->propositions);
    free(s->proofs);
    free(s->depths);
    free(s->marks);
}

static void print_namespace(const char *name, const uint8_t *payload, size_t len, size_t at, size_t chars) {
    FalgnustText text = falgnust_read_text(payload, len, at);
    printf("%s ", name);
    print_text(payload + text.start, text.len);
    printf(", characters %zu\n", chars);
}

static void print_proposition(const uint8_t *payload, size_t len, size_t number, size_t at) {
    FalgnustProposition p = falgnust_read_proposition(payload, len, at);
    printf("proposition %zu: ", number);
    print_text(payload + p.kind.start, p.kind.len);
    printf(", characters %zu, owner %" PRIu32 ", scope %" PRIu32 ", type %" PRIu32 "\n", p.kind.chars, p.ast_owner_id, p.semantic_scope_id, p.type_obligation_id);
}

static void print_witness(const uint8_t *payload, size_t len, uint16_t schema, size_t at) {
    FalgnustWitness w = falgnust_read_witness(payload, len, schema, at);
    printf("  witness %" PRIu32 ": polarity %u, source %" PRIu64 " to %" PRIu64, w.witness_id, w.polarity, w.source_start, w.source_end);
    printf("\n    file   ");
    print_digest(w.file_digest);
    printf("\n    origin ");
    print_digest(w.origin_digest);
    printf("\n");
}

static void print_proof(const uint8_t *payload, size_t len, const FalgnustSection *section, size_t at, uint64_t depth, uint8_t mark) {
    FalgnustProof p = falgnust_read_proof(payload, len, at);
    printf("proof %" PRIu32 ": proposition %" PRIu32 ", ", p.proof_id, p.proposition_index);
    print_text(payload + p.rule_id.start, p.rule_id.len);
    printf(", authority %" PRIu32 ", depth %" PRIu64 ", mark %u\n", p.authority_context, depth, mark);
    for (uint32_t i = 0; i < p.witness_count; i++) {
        size_t place = falgnust_witness_place(len, section->schema, section->witnesses, section->parents, p.witness_first + i);
        print_witness(payload, len, section->schema, place);
    }
    for (uint32_t i = 0; i < p.parent_count; i++) {
        size_t cell = falgnust_parent_place(len, section->parents, p.parent_first + i);
        printf("  parent %" PRIu32 "\n", falgnust_read_parent(payload, len, cell).proof_id);
    }
}

/* Every record. The section is decoded once, and each record is read at its place. */
static int list(Source *s) {
    FalgnustSection section = falgnust_decode_evr0_section(
        s->input.bytes, s->input.len, 0,
        s->propositions, s->most_propositions, s->proofs, s->most_proofs, s->depths, s->most_proofs, s->marks, s->most_proofs);
    if (!section.accepted)
        return refused(section.refusal);
    const uint8_t *payload = s->input.bytes + 8;
    size_t len = section.cursor - 8;
    printf("schema %u\n", section.schema);
    print_namespace("policy", payload, len, section.policy_at, section.policy_chars);
    print_namespace("issuer", payload, len, section.issuer_at, section.issuer_chars);
    for (size_t i = 0; i < section.propositions; i++)
        print_proposition(payload, len, i, s->propositions[i]);
    for (size_t i = 0; i < section.proofs; i++)
        print_proof(payload, len, &section, s->proofs[i], s->depths[i], s->marks[i]);
    return 0;
}

/* One proof by its number. Each question decodes the section anew. */
static int ask(Source *s, uint32_t number) {
    FalgnustProof proof = falgnust_proof_number(
        s->input.bytes, s->input.len, 0, number,
        s->propositions, s->most_propositions, s->proofs, s->most_proofs, s->depths, s->most_proofs);
    if (!proof.accepted)
        return refused(proof.refusal);
    FalgnustWayDown way = falgnust_way_down(
        s->input.bytes, s->input.len, 0, number, 255,
        s->propositions, s->most_propositions, s->proofs, s->most_proofs, s->depths, s->most_proofs);
    FalgnustAuthorised answer = falgnust_authorised(
        s->input.bytes, s->input.len, 0, proof.proposition_index,
        s->propositions, s->most_propositions, s->proofs, s->most_proofs, s->depths, s->most_proofs, s->marks, s->most_proofs);
    printf("proof %" PRIu32 ": down to witness %" PRIu32 ", moves %" PRIu64, number, way.witness, way.moves);
    printf("; proposition %" PRIu32 " is %sauthorised\n", proof.proposition_index, answer.authorised ? "" : "not ");
    return 0;
}

int main(int count, char **words) {
    if (count < 2) {
        fprintf(stderr, "usage: section FILE [PROOF..]\n");
        return 2;
    }
    Source s = open_source(words[1]);
    int status = list(&s);
    for (int i = 2; i < count && status == 0; i++)
        status = ask(&s, (uint32_t)number_in(words[i], UINT32_MAX));
    close_source(&s);
    return status;
}
