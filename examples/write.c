/* Writes a small map, checks it, and lists what a walk of its stream meets.

     cc -std=c99 -O2 -I include examples/write.c target/libion_map.a -o write
     ./write
     ./write ROOM

   The map: a marker; a list with the int 7 and the string "tree", annotated with the symbol 4; a pad of 16 bytes. ROOM is
   how many bytes there are for it, 128 where it isn't given: with fewer than it needs one sees what a refusal is like. A
   call that is refused ends the writing, and no byte of a map is printed. The status is 0, 1 where something is refused,
   which the standard error then says in words, and 2 where ROOM is no such number or nothing can be printed. */

#include "files.h"
#include "ion_map.h"

#include <inttypes.h>
#include <stdio.h>
#include <stdlib.h>
#include <string.h>

enum {
    MOST_ROOM = 128,
    LIMIT = ION_MAP_DEFAULT_ANNOTATIONS,
    DEPTH = ION_MAP_DEFAULT_DEPTH
};

static uint8_t record[ION_MAP_RECORD_SIZE];

/* Whether a call wrote something: then *size grows by how many bytes it wrote. Where it was refused the standard error
   says what and why, and the caller must go no further: what is there isn't a map. */
static int wrote(const char *what, uint64_t refused, size_t *size)
{
    if (refused != 0) {
        fprintf(stderr, "write: %s is refused: %s (%s %" PRIu64 ")\n", what, ion_map_refusal_text(refused),
                refused == ION_MAP_REFUSAL_NO_ROOM_TO_WRITE ? "bytes needed:" : "position:",
                ion_map_word(record, ION_MAP_AT_REFUSED_POSITION));
        return 0;
    }
    *size += (size_t)ion_map_word(record, ION_MAP_AT_WRITTEN_LENGTH);
    return 1;
}

/* From the inside out: what is in the list, the list, and the wrapper around it. The answer is 0 where a call is
   refused. */
static int write_map(uint8_t *map, size_t room, size_t *size)
{
    static const uint8_t seven[] = {0x07}, tree[] = {'t', 'r', 'e', 'e'}, name[] = {0x84};
    uint8_t body[64], list[64];
    size_t in_body = 0, in_list = 0;

    *size = 0;
    if (room < ION_MAP_MARKER_SIZE) {
        fprintf(stderr, "write: there is no room for the marker\n");
        return 0;
    }
    memcpy(map, ION_MAP_MARKER, ION_MAP_MARKER_SIZE);
    *size = ION_MAP_MARKER_SIZE;

    return wrote("the int", ion_map_write_int(seven, sizeof seven, 0, body, sizeof body, record, sizeof record), &in_body)
        && wrote("the string", ion_map_write_scalar(ION_MAP_TYPE_STRING, tree, sizeof tree, body + in_body,
                                                    sizeof body - in_body, record, sizeof record), &in_body)
        && wrote("the list", ion_map_write_container(ION_MAP_TYPE_LIST, body, in_body, LIMIT, DEPTH, list, sizeof list,
                                                     record, sizeof record), &in_list)
        && wrote("the wrapper", ion_map_write_wrapper(name, sizeof name, list, in_list, LIMIT, DEPTH, map + *size,
                                                      room - *size, record, sizeof record), size)
        && wrote("the pad", ion_map_write_pad(16, map + *size, room - *size, record, sizeof record), size);
}

/* Prints the map's bytes, what the check counts in it, and the items of its stream. */
static int print_map(const uint8_t *map, size_t size)
{
    uint8_t counts[ION_MAP_CHECK_SIZE];
    uint64_t refused;
    size_t i, position;

    refused = ion_map_check(map, size, LIMIT, DEPTH, counts, sizeof counts);
    if (refused != 0) {
        return say_refusal("write", "the map", refused, ion_map_word(counts, ION_MAP_AT_REFUSED_POSITION));
    }
    for (i = 0; i < size; i++) {
        printf("%02X%s", map[i], i + 1 < size ? " " : "\n");
    }
    printf("accepted: %" PRIu64 " list, %" PRIu64 " int, %" PRIu64 " string, %" PRIu64 " pad\n",
           ion_map_word(counts, ION_MAP_AT_CHECK_LISTS), ion_map_word(counts, ION_MAP_AT_CHECK_INTS),
           ion_map_word(counts, ION_MAP_AT_CHECK_STRINGS), ion_map_word(counts, ION_MAP_AT_CHECK_PADS));

    for (position = 0;;) {
        uint64_t kind, end;

        refused = ion_map_step(map, size, 0, size, position, ION_MAP_PART_STREAM, LIMIT, record, sizeof record);
        if (refused != 0) {
            return say_refusal("write", "the map", refused, ion_map_word(record, ION_MAP_AT_REFUSED_POSITION));
        }
        kind = ion_map_word(record, ION_MAP_AT_KIND);
        if (kind == ION_MAP_KIND_END) {
            return GOOD;
        }
        end = ion_map_word(record, ION_MAP_AT_VALUE_END); /* a marker's end is the same word */
        printf("%" PRIu64 "..%" PRIu64 " %s\n", (uint64_t)position, end, kind == ION_MAP_KIND_MARKER ? "marker" : "value");
        position = (size_t)end;
    }
}

int main(int argc, char **argv)
{
    uint8_t map[MOST_ROOM];
    size_t size, room = sizeof map;
    char *behind = NULL;
    int status = REFUSED;

    if (argc == 2) {
        room = (size_t)strtoul(argv[1], &behind, 10);
    }
    if (argc > 2 || room > sizeof map || (behind != NULL && (behind == argv[1] || *behind != '\0'))) {
        fprintf(stderr, "usage: %s [ROOM]    ROOM is at most %d\n", argv[0], MOST_ROOM);
        return FAILED;
    }
    if (write_map(map, room, &size)) {
        status = print_map(map, size);
    }
    return flush_output() ? status : FAILED;
}
