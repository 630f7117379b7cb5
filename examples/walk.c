/* Walks a map and prints a line for each marker and value, as the program mapspans does, but of a map of any size.

     cc -std=c99 -O2 -I include examples/walk.c target/libion_map.a -o walk
     ./walk MAP
     ./walk < MAP

   A line has the depth, the type, and four positions: the item's start, its descriptor, its body's start and
   its end. The last line is `end` and a position, or `refused`, a number and a position.

   The status is 0 where the map was walked to its end, 1 where it was refused, which the standard error then says in
   words, and 2 where it couldn't be read or what is printed couldn't be written. */

#include "files.h"
#include "ion_map.h"
#include "ion_map_kit.h"

#include <inttypes.h>
#include <stdio.h>
#include <stdlib.h>

enum {
    MOST_DEPTH = ION_MAP_DEFAULT_DEPTH /* the stream is depth 0; a container at this depth is printed and not entered */
};

/* A part of the map that is being stepped through. */
struct part {
    size_t start;
    size_t end;
    uint64_t kind;
};

static void print_item(int depth, const char *name, uint64_t start, uint64_t descriptor, uint64_t body, uint64_t end)
{
    printf("%d %s %" PRIu64 " %" PRIu64 " %" PRIu64 " %" PRIu64 "\n", depth, name, start, descriptor, body, end);
}

static void print_marker(int depth, const uint8_t *record)
{
    uint64_t start = ion_map_word(record, ION_MAP_AT_MARKER_START);

    print_item(depth, "marker", start, start, ion_map_word(record, ION_MAP_AT_MARKER_BODY),
               ion_map_word(record, ION_MAP_AT_MARKER_END));
}

static void print_value(int depth, const uint8_t *record)
{
    uint64_t byte = ion_map_word(record, ION_MAP_AT_VALUE_BYTE);

    print_item(depth, ion_map_type_name(ion_map_type(byte)), ion_map_word(record, ION_MAP_AT_VALUE_START),
               ion_map_word(record, ION_MAP_AT_VALUE_DESCRIPTOR), ion_map_word(record, ION_MAP_AT_VALUE_BODY),
               ion_map_word(record, ION_MAP_AT_VALUE_END));
}

/* Returns the status of a map that was refused. */
static int print_refused(uint64_t number, uint64_t position)
{
    printf("refused %" PRIu64 " %" PRIu64 "\n", number, position);
    return say_refusal("walk", "the map", number, position);
}

static struct part body_of(const uint8_t *record)
{
    struct part body;

    body.start = (size_t)ion_map_word(record, ION_MAP_AT_VALUE_BODY);
    body.end = (size_t)ion_map_word(record, ION_MAP_AT_VALUE_END);
    body.kind = ion_map_body_kind(ion_map_word(record, ION_MAP_AT_VALUE_BYTE));
    return body;
}

/* Returns the program's status. */
static int walk(const uint8_t *map, size_t length)
{
    struct part parts[MOST_DEPTH + 1]; /* the stream, and the body entered at each depth below it */
    uint8_t record[ION_MAP_RECORD_SIZE];
    size_t position = 0;
    int depth = 0;

    parts[0].start = 0;
    parts[0].end = length;
    parts[0].kind = ION_MAP_PART_STREAM;

    for (;;) {
        const struct part *part = &parts[depth];
        uint64_t refused = ion_map_step(map, length, part->start, part->end, position, part->kind,
                                        ION_MAP_DEFAULT_ANNOTATIONS, record, sizeof record);

        if (refused != 0) {
            return print_refused(refused, ion_map_word(record, ION_MAP_AT_REFUSED_POSITION));
        }
        switch (ion_map_word(record, ION_MAP_AT_KIND)) {
        case ION_MAP_KIND_END:
            if (depth == 0) {
                printf("end %" PRIu64 "\n", ion_map_word(record, ION_MAP_AT_END_POSITION));
                return GOOD;
            }
            position = part->end; /* the container ends where its body does */
            depth--;
            break;
        case ION_MAP_KIND_MARKER:
            print_marker(depth, record);
            position = (size_t)ion_map_word(record, ION_MAP_AT_MARKER_END);
            break;
        default: /* a value or a field */
            print_value(depth, record);
            position = (size_t)ion_map_word(record, ION_MAP_AT_VALUE_END);
            if (!ion_map_is_container(ion_map_word(record, ION_MAP_AT_VALUE_BYTE))) {
                break;
            }
            if (depth == MOST_DEPTH) {
                return print_refused(ION_MAP_REFUSAL_TOO_DEEP, ion_map_word(record, ION_MAP_AT_VALUE_DESCRIPTOR));
            }
            depth++;
            parts[depth] = body_of(record);
            position = parts[depth].start;
            break;
        }
    }
}

int main(int argc, char **argv)
{
    uint8_t *map;
    size_t length;
    int status;

    if (argc > 2) {
        fprintf(stderr, "usage: %s [MAP]\n", argv[0]);
        return FAILED;
    }
    map = read_input(argc == 2 ? argv[1] : NULL, &length);
    if (map == NULL) {
        return FAILED;
    }
    status = walk(map, length);
    free(map);
    return flush_output() ? status : FAILED;
}
