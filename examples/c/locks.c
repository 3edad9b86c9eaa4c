/* Lets owners claim and release the paths of a file's functions, step by step, and prints the locks that are held at the end.
 *
 *   locks FILE CURSOR REVISION STEP..      ("-" is standard input)
 *
 * A step OWNER:FUNCTION:SET claims the paths of a function by its number, under a source set of 32 bytes SET (0 where it is left out); a step
 * OWNER releases what the owner holds. */
#include "input.h"

#include <inttypes.h>
#include <stdio.h>
#include <stdlib.h>
#include <string.h>

/* As many as there can be, so that no lent table is too short. */
enum { MOST_FUNCTIONS = 1024, MOST_STRINGS = 256, MOST_PATHS = 65535, MOST_FAMILIES = 4096 };

typedef struct Lent {
    uint64_t *functions, *strings, *paths;
    uint8_t *families;
} Lent;

/* The file, and the revision of its functions. */
typedef struct Functions {
    Input file;
    size_t cursor;
    uint16_t revision;
} Functions;

static FalgnustRegister locks; /* zeros: the empty register */

static void claim(const Functions *all, uint32_t owner, size_t number, uint8_t set, Lent lent) {
    printf("owner %" PRIu32 " claims ", owner);
    uint8_t source[32];
    memset(source, set, sizeof source);
    const Input *file = &all->file;
    FalgnustFunction f = falgnust_function_number(
        file->bytes, file->len, all->cursor, all->revision, number, lent.functions, MOST_FUNCTIONS,
        lent.strings, MOST_STRINGS, lent.paths, MOST_PATHS, lent.families, MOST_FAMILIES);
    if (!f.accepted) {
        refused(f.refusal);
        return;
    }
    print_text(file->bytes + f.name.start, f.name.len);
    printf(" of set %u: ", set);
    FalgnustClaim c = falgnust_claim(
        &locks, owner, f.code_offset, file->bytes + f.code_offset, f.code_len, all->revision, source,
        lent.strings, MOST_STRINGS, lent.paths, MOST_PATHS, lent.families, MOST_FAMILIES);
    if (c.accepted)
        printf("%zu held\n", c.held);
    else
        refused(c.refusal);
}

static void print_locks(void) {
    for (size_t i = 0; i < falgnust_held(&locks); i++) {
        FalgnustLock l = falgnust_lock_number(&locks, i);
        printf("lock %zu: owner %" PRIu32 " %s root %" PRIu32 " of ", i, l.owner, l.write ? "writes" : "borrows", l.root_symbol_id);
        print_digest(l.source);
        printf("\n");
        for (size_t k = 0; k < l.component_count; k++)
            print_component(falgnust_lock_part(&locks, i, k).component);
    }
}

static void step(const Functions *all, char *word, Lent lent) {
    char *owner_word = strtok(word, ":"), *function = strtok(NULL, ":"), *set = strtok(NULL, ":");
    uint32_t owner = (uint32_t)number_in(owner_word == NULL ? "" : owner_word, UINT32_MAX);
    if (function != NULL)
        claim(all, owner, number_in(function, SIZE_MAX), set == NULL ? 0 : (uint8_t)number_in(set, UINT8_MAX), lent);
    else
        printf("owner %" PRIu32 " releases: %zu held\n", owner, falgnust_release(&locks, owner));
}

int main(int count, char **words) {
    if (count < 4) {
        fprintf(stderr, "usage: locks FILE CURSOR REVISION STEP..\n");
        return 2;
    }
    Functions all = {read_input(words[1]), number_in(words[2], SIZE_MAX), (uint16_t)number_in(words[3], UINT16_MAX)};
    Lent lent = {
        room_for(MOST_FUNCTIONS, sizeof(uint64_t)),
        room_for(MOST_STRINGS, sizeof(uint64_t)),
        room_for(MOST_PATHS, sizeof(uint64_t)),
        room_for(MOST_FAMILIES, sizeof(uint8_t)),
    };
    for (int i = 4; i < count; i++)
        step(&all, words[i], lent);
    print_locks();
    free(all.file.bytes);
    free(lent.functions);
    free(lent.strings);
    free(lent.paths);
    free(lent.families);
    return 0;
}
