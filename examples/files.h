/* What the programs of this folder share: their statuses, reading a whole file, and saying what fails. */

#ifndef FILES_H
#define FILES_H

#include "ion_map.h"

#include <inttypes.h>
#include <stdio.h>
#include <stdlib.h>

/* A program's status. */
enum {
    GOOD = 0,
    REFUSED = 1, /* the map says no */
    FAILED = 2   /* a file can't be read or written, there is no memory, or the arguments are wrong */
};

/* All bytes of the file `name`, or of the standard input where that is null: a file of any size, and a pipe too. The
   caller frees them. Where they can't be had the answer is null, and the standard error says why. */
static inline uint8_t *read_input(const char *name, size_t *length)
{
    FILE *file = name == NULL ? stdin : fopen(name, "rb");
    uint8_t *bytes = NULL;
    size_t room = 0;
    int whole = 0;

    *length = 0;
    while (file != NULL && !whole) {
        size_t more = room == 0 ? 65536 : 2 * room; /* there is no memory long before this is too large a number */
        uint8_t *grown = (uint8_t *)realloc(bytes, more);

        if (grown == NULL) {
            break;
        }
        bytes = grown;
        room = more;
        *length += fread(bytes + *length, 1, room - *length, file);
        if (ferror(file)) {
            break;
        }
        whole = *length < room;
    }
    if (!whole) {
        perror(name == NULL ? "standard input" : name);
        free(bytes);
        bytes = NULL;
    }
    if (file != NULL && file != stdin) {
        fclose(file);
    }
    return bytes;
}

/* Whether what was printed has gone out: it lies in a buffer up to here, and a full disk shows when that is written. */
static inline int flush_output(void)
{
    if (fflush(stdout) != 0 || ferror(stdout)) {
        perror("standard output");
        return 0;
    }
    return 1;
}

/* Says in words why a map is refused, and returns the program's status. */
static inline int say_refusal(const char *program, const char *what, uint64_t number, uint64_t position)
{
    fprintf(stderr, "%s: %s is refused at %" PRIu64 ": %s\n", program, what, position, ion_map_refusal_text(number));
    return REFUSED;
}

#endif
