/* Patches many bodies and annotations of a map of any size in place, and shows what stays.

     cc -std=c99 -O2 -I include examples/patch.c target/libion_map.a -o patch
     ./patch MAP
     ./patch < MAP          (on Windows name the file: standard input isn't binary there)

   Every string, clob and blob outside the symbol tables gets another body of the same length, and other bytes for
   annotations, where it has any. None of them lies inside another, and none is or makes a symbol table. So both maps
   give the same answers: each step of every part, to its end or its refusal, with the spans of what was patched;
   stepping into each container; of every value that was not patched its annotations and what it is; which items of the
   stream are symbol tables, and behind each of them which list rules and the texts of the first IDs.

   Prints how many were patched and how many answers are the same. The status is 0 where ion_map_check accepts the map,
   1 where it refuses it, which the standard error then says in words (the answers are compared as far as they go all the
   same), and 2 where it couldn't be read or what is printed couldn't be written. It is 3 where an answer differs, which
   is then named: that would be a fault of the library. */

#include "files.h"
#include "ion_map.h"
#include "ion_map_kit.h"

#include <inttypes.h>
#include <stdio.h>
#include <stdlib.h>
#include <string.h>

enum {
    DIFFERENT = 3, /* the status, beside those of files.h */
    MOST_DEPTH = ION_MAP_DEFAULT_DEPTH,
    LIMIT = ION_MAP_DEFAULT_ANNOTATIONS,
    TABLE_ANNOTATION = 3, /* the first annotation of a symbol table */
    IDS = 16              /* the texts of the IDs below it are compared */
};

static uint8_t *map;     /* as it was read */
static uint8_t *patched; /* and with the patches */
static size_t length;

static unsigned long bodies, annotations, steps, entered, ids, scalars, tables, texts, differing;

/* One of the answers on the map and the one on the patched map. */
static void compare(const char *what, size_t position, const uint8_t *before, const uint8_t *after, unsigned long *count)
{
    (*count)++;
    if (memcmp(before, after, ION_MAP_RECORD_SIZE) != 0) {
        printf("%s at %lu differs\n", what, (unsigned long)position);
        differing++;
    }
}

static size_t word(const uint8_t *record, size_t i)
{
    return (size_t)ion_map_word(record, i);
}

/* Whether a value of the stream is a symbol table of these bytes. */
static int is_table(const uint8_t *bytes, const uint8_t *value)
{
    uint8_t first[ION_MAP_RECORD_SIZE];
    uint64_t byte = ion_map_word(value, ION_MAP_AT_VALUE_BYTE);
    size_t start = word(value, ION_MAP_AT_VALUE_ANNOTATIONS);
    size_t end = word(value, ION_MAP_AT_VALUE_DESCRIPTOR);

    return ion_map_type(byte) == ION_MAP_TYPE_STRUCT && !ion_map_is_null(byte) && start < end
        && ion_map_annotation(bytes, length, start, end, start, first, sizeof first) == 0
        && ion_map_word(first, ION_MAP_AT_ANNOTATION_ID) == TABLE_ANNOTATION;
}

/* Whether a value is patched: text or bytes, wherever it stands outside the symbol tables. */
static int is_chosen(const uint8_t *value)
{
    uint64_t byte = ion_map_word(value, ION_MAP_AT_VALUE_BYTE);
    uint64_t type = ion_map_type(byte);

    return !ion_map_is_null(byte)
        && (type == ION_MAP_TYPE_STRING || type == ION_MAP_TYPE_CLOB || type == ION_MAP_TYPE_BLOB);
}

/* Flips every bit of the map's bytes start..end, in place. */
static void patch_bytes(size_t start, size_t end)
{
    size_t i;

    for (i = start; i < end; i++) {
        patched[i] = (uint8_t)~map[i];
    }
}

static void patch(const uint8_t *value)
{
    size_t start = word(value, ION_MAP_AT_VALUE_ANNOTATIONS);
    size_t end = word(value, ION_MAP_AT_VALUE_DESCRIPTOR);

    patch_bytes(word(value, ION_MAP_AT_VALUE_BODY), word(value, ION_MAP_AT_VALUE_END));
    patch_bytes(start, end);
    bodies++;
    annotations += start < end;
}

/* Patches what is to be patched in a part, and in the containers in it. */
static void patch_part(size_t start, size_t end, uint64_t kind, int depth)
{
    uint8_t value[ION_MAP_RECORD_SIZE];
    size_t position = start;

    while (ion_map_step(map, length, start, end, position, kind, LIMIT, value, sizeof value) == 0
           && ion_map_word(value, ION_MAP_AT_KIND) != ION_MAP_KIND_END) {
        uint64_t byte = ion_map_word(value, ION_MAP_AT_VALUE_BYTE);

        position = word(value, ION_MAP_AT_VALUE_END);
        if (ion_map_word(value, ION_MAP_AT_KIND) == ION_MAP_KIND_MARKER || (depth == 0 && is_table(map, value))) {
            continue;
        }
        if (is_chosen(value)) {
            patch(value);
        } else if (ion_map_is_container(byte) && depth < MOST_DEPTH) {
            patch_part(word(value, ION_MAP_AT_VALUE_BODY), position, ion_map_body_kind(byte), depth + 1);
        }
    }
}

/* The list that rules at a place, of the table that begins at `table`, and the texts of the first IDs. A stream from the
   table on is enough for that: it is the last one before the place. */
static void compare_texts(size_t table, size_t place)
{
    uint8_t before[ION_MAP_RECORD_SIZE], after[ION_MAP_RECORD_SIZE];
    const uint8_t *system = ion_map_system_text();
    uint64_t refused;
    size_t id, start, end;

    refused = ion_map_symbols(map, length, system, ION_MAP_SYSTEM_TEXT_SIZE, table, length, place, LIMIT, before,
                              sizeof before);
    ion_map_symbols(patched, length, system, ION_MAP_SYSTEM_TEXT_SIZE, table, length, place, LIMIT, after, sizeof after);
    compare("a table's list", place, before, after, &tables);
    if (refused != 0) {
        return;
    }
    start = word(before, ION_MAP_AT_SYMBOLS_START);
    end = word(before, ION_MAP_AT_SYMBOLS_END);
    for (id = 0; id < IDS; id++) {
        ion_map_symbol_text(map, length, system, ION_MAP_SYSTEM_TEXT_SIZE, start, end, id, LIMIT, before, sizeof before);
        ion_map_symbol_text(patched, length, system, ION_MAP_SYSTEM_TEXT_SIZE, start, end, id, LIMIT, after, sizeof after);
        compare("a text", place, before, after, &texts);
    }
}

static void compare_annotations(size_t start, size_t end)
{
    uint8_t before[ION_MAP_RECORD_SIZE], after[ION_MAP_RECORD_SIZE];
    size_t position = start;

    while (position < end) {
        uint64_t refused = ion_map_annotation(map, length, start, end, position, before, sizeof before);

        ion_map_annotation(patched, length, start, end, position, after, sizeof after);
        compare("an annotation", position, before, after, &ids);
        if (refused != 0) {
            return;
        }
        position = word(before, ION_MAP_AT_ANNOTATION_END);
    }
}

/* Every answer on a part, and on the containers in it. `inside` is whether the part lies in a symbol table, where nothing
   was patched. */
static void compare_part(size_t start, size_t end, uint64_t kind, int depth, int inside)
{
    uint8_t value[ION_MAP_RECORD_SIZE], before[ION_MAP_RECORD_SIZE], after[ION_MAP_RECORD_SIZE];
    size_t position = start, last_table = 0;
    int behind_table = 0;

    for (;;) {
        uint64_t refused = ion_map_step(map, length, start, end, position, kind, LIMIT, value, sizeof value);
        uint64_t byte = ion_map_word(value, ION_MAP_AT_VALUE_BYTE);
        size_t item = word(value, ION_MAP_AT_VALUE_START), descriptor = word(value, ION_MAP_AT_VALUE_DESCRIPTOR);
        int table;

        ion_map_step(patched, length, start, end, position, kind, LIMIT, after, sizeof after);
        compare("a step", position, value, after, &steps);
        if (refused != 0) {
            return;
        }
        if (behind_table) {
            compare_texts(last_table, item); /* of an end the same word is its position */
            behind_table = 0;
        }
        if (ion_map_word(value, ION_MAP_AT_KIND) == ION_MAP_KIND_END) {
            return;
        }
        position = word(value, ION_MAP_AT_VALUE_END);
        if (ion_map_word(value, ION_MAP_AT_KIND) == ION_MAP_KIND_MARKER) {
            continue;
        }
        table = inside;
        if (depth == 0 && is_table(map, value) != is_table(patched, value)) {
            printf("whether a table is at %lu differs\n", (unsigned long)item);
            differing++;
        } else if (depth == 0 && is_table(map, value)) {
            table = behind_table = 1;
            last_table = item;
        }
        if (table || !is_chosen(value)) {
            compare_annotations(word(value, ION_MAP_AT_VALUE_ANNOTATIONS), descriptor);
            ion_map_scalar(map, length, start, end, descriptor, LIMIT, before, sizeof before);
            ion_map_scalar(patched, length, start, end, descriptor, LIMIT, after, sizeof after);
            compare("a scalar", descriptor, before, after, &scalars);
        }
        if (ion_map_is_container(byte) && depth < MOST_DEPTH) {
            ion_map_step_in(map, length, start, end, descriptor, LIMIT, before, sizeof before);
            ion_map_step_in(patched, length, start, end, descriptor, LIMIT, after, sizeof after);
            compare("stepping in", descriptor, before, after, &entered);
            compare_part(word(value, ION_MAP_AT_VALUE_BODY), position, ion_map_body_kind(byte), depth + 1, table);
        }
    }
}

int main(int argc, char **argv)
{
    uint8_t checked[ION_MAP_CHECK_SIZE];
    uint64_t refused;
    int status = GOOD;

    if (argc > 2) {
        fprintf(stderr, "usage: %s [MAP]\n", argv[0]);
        return FAILED;
    }
    map = read_input(argc == 2 ? argv[1] : NULL, &length);
    if (map == NULL) {
        return FAILED;
    }
    patched = (uint8_t *)malloc(length + 1); /* one more, so that an empty map has memory too */
    if (patched == NULL) {
        perror("patch: the patched map");
        free(map);
        return FAILED;
    }
    memcpy(patched, map, length);
    patch_part(0, length, ION_MAP_PART_STREAM, 0);
    printf("patched: %lu bodies, and the annotations of %lu\n", bodies, annotations);
    compare_part(0, length, ION_MAP_PART_STREAM, 0, 0);
    printf("as before: %lu steps, %lu containers, %lu annotations, %lu scalars, %lu tables, %lu texts\n", steps, entered, ids,
           scalars, tables, texts);
    refused = ion_map_check(map, length, LIMIT, MOST_DEPTH, checked, sizeof checked);
    if (refused != 0) {
        status = say_refusal("patch", "the map", refused, ion_map_word(checked, ION_MAP_AT_REFUSED_POSITION));
    }
    free(patched);
    free(map);
    return !flush_output() ? FAILED : differing != 0 ? DIFFERENT : status;
}
