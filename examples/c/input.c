#include "input.h"

#include <errno.h>
#include <inttypes.h>
#include <stdio.h>
#include <stdlib.h>
#include <string.h>

static _Noreturn void fail(const char *what, const char *why) {
    fprintf(stderr, "%s: %s\n", what, why);
    exit(2);
}

void *room_for(size_t count, size_t size) {
    void *room = calloc(count == 0 ? 1 : count, size);
    if (room == NULL)
        fail("memory", strerror(errno));
    return room;
}

Input read_input(const char *name) {
    FILE *file = strcmp(name, "-") == 0 ? stdin : fopen(name, "rb");
    if (file == NULL)
        fail(name, strerror(errno));
    size_t room = 65536;
    Input input = {room_for(room, 1), 0};
    size_t got;
    while ((got = fread(input.bytes + input.len, 1, room - input.len, file)) > 0) {
        input.len += got;
        if (input.len < room)
            continue;
        room *= 2;
        uint8_t *more = realloc(input.bytes, room);
        if (more == NULL)
            fail(name, strerror(errno));
        input.bytes = more;
    }
    if (ferror(file))
        fail(name, strerror(errno));
    if (file != stdin)
        fclose(file);
    return input;
}

unsigned long number_in(const char *word, unsigned long most) {
    char *end;
    errno = 0;
    unsigned long number = strtoul(word, &end, 10);
    if (errno != 0 || end == word || *end != '\0' || *word == '-' || number > most)
        fail(word, "not a number, or too high");
    return number;
}

int refused(FalgnustRefusal refusal) {
    static const char *const kinds[] = {"Invalid", "Limit", "Strings", "Debug", "Ownership", "Added", "Truncated", "Name", "Signature"};
    printf("refused %u at %zu (%s)\n", refusal.number, refusal.offset, kinds[refusal.kind]);
    return 1;
}

void print_text(const uint8_t *bytes, size_t len) {
    fwrite(bytes, 1, len, stdout);
}

void print_digest(const uint8_t digest[32]) {
    for (size_t i = 0; i < 32; i++)
        printf("%02" PRIx8, digest[i]);
}

void print_component(FalgnustParts c) {
    static const char *const kinds[] = {"tuple index", "field", "variant", "sequence index"};
    printf("  %s %" PRIu32, kinds[c.kind], c.first);
    if (c.kind == FALGNUST_ADT_PAYLOAD)
        printf(", index %" PRIu16, c.second);
    printf("\n");
}
