/* Compares two sections: each proposition that either has, with what both say of it, and how many there are of each verdict.
 *
 *   compare FIRST SECOND [RULES]      ("-" is standard input) */
#include "input.h"

#include <inttypes.h>
#include <stdio.h>
#include <stdlib.h>

/* A section's bytes, and the tables that are lent for it. They are long enough for whatever the bytes say. */
typedef struct Source {
    Input input;
    uint64_t *propositions;
    uint64_t *proofs;
    uint64_t *depths;
    uint8_t *marks;
    uint8_t *authorised;
    size_t most_propositions;
    size_t most_proofs;
} Source;

static Source open_source(const char *name) {
    Input input = read_input(name);
    size_t most_propositions = input.len / 15;
    size_t most_proofs = input.len / 35;
    Source s = {
        input,
        room_for(most_propositions, sizeof(uint64_t)),
        room_for(most_proofs, sizeof(uint64_t)),
        room_for(most_proofs, sizeof(uint64_t)),
        room_for(most_proofs, sizeof(uint8_t)),
        room_for(most_propositions, sizeof(uint8_t)),
        most_propositions,
        most_proofs,
    };
    return s;
}

static void close_source(Source *s) {
    free(s->input.bytes);
    free(s->propositions);
    free(s->proofs);
    free(s->depths);
    free(s->marks);
    free(s->authorised);
}

static FalgnustComparison compare(Source *a, Source *b, uint8_t *verdicts, size_t most) {
    return falgnust_compare_sections(
        a->input.bytes, a->input.len, 0, a->propositions, a->most_propositions, a->proofs, a->most_proofs,
        a->depths, a->most_proofs, a->marks, a->most_proofs, a->authorised, a->most_propositions,
        b->input.bytes, b->input.len, 0, b->propositions, b->most_propositions, b->proofs, b->most_proofs,
        b->depths, b->most_proofs, b->marks, b->most_proofs, b->authorised, b->most_propositions, verdicts, most);
}

static FalgnustComparison compare_by(Input rules, Source *a, Source *b, uint8_t *verdicts, size_t most) {
    return falgnust_compare_sections_by_rules(
        rules.bytes, rules.len,
        a->input.bytes, a->input.len, 0, a->propositions, a->most_propositions, a->proofs, a->most_proofs,
        a->depths, a->most_proofs, a->marks, a->most_proofs, a->authorised, a->most_propositions,
        b->input.bytes, b->input.len, 0, b->propositions, b->most_propositions, b->proofs, b->most_proofs,
        b->depths, b->most_proofs, b->marks, b->most_proofs, b->authorised, b->most_propositions, verdicts, most);
}

/* A proposition of a section, by its number. */
static void print_proposition(const Source *s, size_t number) {
    const uint8_t *payload = s->input.bytes + 8;
    FalgnustProposition p = falgnust_read_proposition(payload, s->input.len - 8, s->propositions[number]);
    print_text(payload + p.kind.start, p.kind.len);
    printf(", owner %" PRIu32 ", scope %" PRIu32 ", type %" PRIu32, p.ast_owner_id, p.semantic_scope_id, p.type_obligation_id);
}

/* The list, with a place in each table of propositions: an entry of 1 or 2 advances both, 3 the first, 4 the second. */
static void print_list(const Source *first, const Source *second, const uint8_t *verdicts, size_t count) {
    static const char *const words[] = {"", "agreed", "contradicted", "first only", "second only"};
    size_t ours = 0, theirs = 0;
    for (size_t i = 0; i < count; i++) {
        bool in_first = verdicts[i] != FALGNUST_SECOND_ONLY;
        bool in_second = verdicts[i] != FALGNUST_FIRST_ONLY;
        printf("%s: ", words[verdicts[i]]);
        print_proposition(in_first ? first : second, in_first ? ours : theirs);
        printf("; authorised");
        if (in_first)
            printf(" first %s", first->authorised[ours] ? "yes" : "no");
        if (in_second)
            printf(" second %s", second->authorised[theirs] ? "yes" : "no");
        printf("\n");
        ours += in_first;
        theirs += in_second;
    }
}

int main(int count, char **words) {
    if (count < 3 || count > 4) {
        fprintf(stderr, "usage: compare FIRST SECOND [RULES]\n");
        return 2;
    }
    Source first = open_source(words[1]);
    Source second = open_source(words[2]);
    size_t most = first.most_propositions + second.most_propositions;
    uint8_t *verdicts = room_for(most, sizeof(uint8_t));
    FalgnustComparison c;
    if (count == 4) {
        Input rules = read_input(words[3]);
        c = compare_by(rules, &first, &second, verdicts, most);
        free(rules.bytes);
    } else {
        c = compare(&first, &second, verdicts, most);
    }
    int status = 0;
    if (c.accepted) {
        print_list(&first, &second, verdicts, c.agreed + c.contradicted + c.first_only + c.second_only);
        printf("agreed %zu, contradicted %zu, first only %zu, second only %zu\n", c.agreed, c.contradicted, c.first_only, c.second_only);
    } else {
        static const char *const whose[] = {"", "rules", "first section", "second section", "both sections"};
        printf("%s: ", whose[c.whose]);
        status = refused(c.refusal);
    }
    close_source(&first);
    close_source(&second);
    free(verdicts);
    return status;
}
