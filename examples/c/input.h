/* What the programs share: a whole file as bytes, lent tables, and how refusals, bytes and components are printed. */
#ifndef INPUT_H
#define INPUT_H

#include "falgnust.h"

typedef struct Input {
    uint8_t *bytes; /* never null; to be freed */
    size_t len;
} Input;

/* A file, or standard input where the name is "-". Ends the program where it cannot be read. */
Input read_input(const char *name);

/* Room for count items of a size, and never null. Ends the program where there is no memory. */
void *room_for(size_t count, size_t size);

/* A number on the command line, from 0 to most. Ends the program where it is none. */
unsigned long number_in(const char *word, unsigned long most);

/* Prints a refusal, and gives the exit status for it. */
int refused(FalgnustRefusal refusal);

void print_text(const uint8_t *bytes, size_t len);
void print_digest(const uint8_t digest[32]);

/* On a line of its own. */
void print_component(FalgnustParts component);

#endif
