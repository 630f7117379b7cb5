/* Prints the names in a map of any size: the texts of annotations, field IDs and symbols, where they stand.

     cc -std=c99 -O2 -I include examples/names.c target/libion_map.a -o names
     ./names MAP
     ./names < MAP

   A line has a position, what the ID there is, the ID and its text in quotes, or `unknown`. In a text every byte that is
   no printable ASCII stands as \x and two digits, and a quote and a backslash stand behind a backslash: whatever a map
   holds, a text can't end its line or tell a terminal anything. A refusal ends the lines with `refused`, a number and a
   position. The status is that of walk.c: 0, 1 for a refusal, 2 where reading or writing fails.

   It takes one walk. The symbol table that rules is kept along it, and not looked for at each item: ion_map_symbols is
   asked about a stream that begins at the table itself. The list of a table is gone through once, for an index of its
   entries, by which each ID is then found at once; ion_map_symbol_text would go through the list for each ID. So the
   time goes by the bytes that are read and printed. */

#include "files.h"
#include "ion_map.h"
#include "ion_map_kit.h"

#include <inttypes.h>
#include <stdio.h>
#include <stdlib.h>
#include <string.h>

enum {
    MOST_DEPTH = ION_MAP_DEFAULT_DEPTH,
    LIMIT = ION_MAP_DEFAULT_ANNOTATIONS,
    TABLE_ANNOTATION = 3 /* the first annotation of a symbol table */
};

static const uint8_t *map;
static size_t length;

/* An entry of a list: where its string stands, descriptor and end, or 0 and 0 for one whose text is unknown. */
struct entry {
    size_t descriptor;
    size_t end;
};

/* The symbol table that rules where the walk is. */
static struct {
    int asked;     /* whether it was asked for its list */
    size_t item;   /* where it begins */
    size_t start;  /* the body of its list; 0 and 0 where it has none */
    size_t end;
    int indexed;   /* whether its list was gone through */
    size_t count;  /* of its entries */
    int refused;   /* whether the list is refused behind them, and that refusal's record */
    uint8_t refusal[ION_MAP_RECORD_SIZE];
} table = {1, 0, 0, 0, 0, 0, 0, {0}};

/* The entries of the table; the memory serves one table after the other. */
static struct entry *entries;
static size_t room;

/* Returns the status of a map that was refused. */
static int print_refused(uint64_t number, uint64_t position)
{
    printf("refused %" PRIu64 " %" PRIu64 "\n", number, position);
    return say_refusal("names", "the map", number, position);
}

static int refused(const uint8_t *record)
{
    return print_refused(ion_map_word(record, ION_MAP_AT_REFUSED_NUMBER), ion_map_word(record, ION_MAP_AT_REFUSED_POSITION));
}

/* From here on no table rules, or that at `item`, which is asked for its list at the next item. */
static void table_at(size_t item, int is_table)
{
    table.asked = !is_table;
    table.item = item;
    table.start = table.end = 0;
    table.indexed = 0;
}

/* The list of the table, at the item behind it that begins at `place`. */
static int ask_table(size_t place)
{
    uint8_t record[ION_MAP_RECORD_SIZE];

    if (ion_map_symbols(map, length, ion_map_system_text(), ION_MAP_SYSTEM_TEXT_SIZE, table.item, length, place, LIMIT,
                        record, sizeof record) != 0) {
        return refused(record);
    }
    table.asked = 1;
    table.start = (size_t)ion_map_word(record, ION_MAP_AT_SYMBOLS_START);
    table.end = (size_t)ion_map_word(record, ION_MAP_AT_SYMBOLS_END);
    return GOOD;
}

/* Goes through the list for its entries. One that is refused refuses only the IDs from there on. */
static int index_table(void)
{
    uint8_t record[ION_MAP_RECORD_SIZE];
    size_t position = table.start;

    table.indexed = 1;
    table.count = 0;
    for (;;) {
        uint64_t byte;

        table.refused = ion_map_step(map, length, table.start, table.end, position, ION_MAP_PART_SEQUENCE, LIMIT, record,
                                     sizeof record) != 0;
        if (table.refused) {
            memcpy(table.refusal, record, sizeof record);
            return GOOD;
        }
        if (ion_map_word(record, ION_MAP_AT_KIND) == ION_MAP_KIND_END) {
            return GOOD;
        }
        if (table.count == room) {
            size_t more = room == 0 ? 256 : 2 * room;
            struct entry *grown = (struct entry *)realloc(entries, more * sizeof *entries);

            if (grown == NULL) {
                perror("names: the entries of a symbol table");
                return FAILED;
            }
            entries = grown;
            room = more;
        }
        byte = ion_map_word(record, ION_MAP_AT_VALUE_BYTE);
        position = (size_t)ion_map_word(record, ION_MAP_AT_VALUE_END);
        entries[table.count].descriptor = entries[table.count].end = 0;
        if (ion_map_type(byte) == ION_MAP_TYPE_STRING && !ion_map_is_null(byte)) {
            entries[table.count].descriptor = (size_t)ion_map_word(record, ION_MAP_AT_VALUE_DESCRIPTOR);
            entries[table.count].end = position;
        }
        table.count++;
    }
}

static void print_text(const uint8_t *text, size_t size)
{
    size_t i;

    printf(" \"");
    for (i = 0; i < size; i++) {
        if (text[i] < ' ' || text[i] > '~') {
            printf("\\x%02X", text[i]);
        } else {
            if (text[i] == '"' || text[i] == '\\') {
                putchar('\\');
            }
            putchar(text[i]);
        }
    }
    printf("\"\n");
}

static int print_name(uint64_t position, const char *what, uint64_t id)
{
    uint8_t record[ION_MAP_RECORD_SIZE];
    const uint8_t *text = NULL;
    size_t size = 0;

    if (id < ION_MAP_FIRST_OWN_ID) {
        /* One of the nine, or 0: no list is gone through for it. */
        ion_map_symbol_text(map, length, ion_map_system_text(), ION_MAP_SYSTEM_TEXT_SIZE, 0, 0, (size_t)id, LIMIT, record,
                            sizeof record);
        if (ion_map_word(record, ION_MAP_AT_TEXT_WHERE) == ION_MAP_TEXT_OF_SYSTEM) {
            text = ion_map_system_text() + ion_map_word(record, ION_MAP_AT_TEXT_START);
            size = (size_t)ion_map_word(record, ION_MAP_AT_LENGTH);
        }
    } else {
        int status = table.indexed ? GOOD : index_table();

        if (status != GOOD) {
            return status;
        }
        if (id - ION_MAP_FIRST_OWN_ID < table.count) {
            const struct entry *entry = &entries[id - ION_MAP_FIRST_OWN_ID];

            if (entry->end != 0) {
                if (ion_map_scalar(map, length, entry->descriptor, entry->end, entry->descriptor, LIMIT, record,
                                   sizeof record) != 0) {
                    return refused(record);
                }
                text = map + ion_map_word(record, ION_MAP_AT_SCALAR_START);
                size = (size_t)ion_map_word(record, ION_MAP_AT_LENGTH);
            }
        } else if (table.refused) {
            return refused(table.refusal);
        }
    }
    printf("%" PRIu64 " %s %" PRIu64, position, what, id);
    if (text == NULL) {
        printf(" unknown\n");
    } else {
        print_text(text, size);
    }
    return GOOD;
}

/* Prints the names of annotations, and says which ID the first one is, or 0 where there is none. */
static int print_annotations(size_t start, size_t end, uint64_t *first)
{
    uint8_t record[ION_MAP_RECORD_SIZE];
    size_t position = start;

    *first = 0;
    while (position < end) {
        int status;
        uint64_t id;

        if (ion_map_annotation(map, length, start, end, position, record, sizeof record) != 0) {
            return refused(record);
        }
        id = ion_map_word(record, ION_MAP_AT_ANNOTATION_ID);
        if (position == start) {
            *first = id;
        }
        status = print_name(position, "annotation", id);
        if (status != GOOD) {
            return status;
        }
        position = (size_t)ion_map_word(record, ION_MAP_AT_ANNOTATION_END);
    }
    return GOOD;
}

/* The names of a part, a container's before those in it. Returns the program's status. */
static int print_part(size_t start, size_t end, uint64_t kind, int depth)
{
    uint8_t record[ION_MAP_RECORD_SIZE];
    uint8_t value[ION_MAP_RECORD_SIZE];
    size_t position = start;

    for (;;) {
        uint64_t byte, item, descriptor, first;
        int status = GOOD;

        if (ion_map_step(map, length, start, end, position, kind, LIMIT, value, sizeof value) != 0) {
            return refused(value);
        }
        if (ion_map_word(value, ION_MAP_AT_KIND) == ION_MAP_KIND_END) {
            return GOOD;
        }
        item = ion_map_word(value, ION_MAP_AT_VALUE_START);
        position = (size_t)ion_map_word(value, ION_MAP_AT_VALUE_END);
        if (ion_map_word(value, ION_MAP_AT_KIND) == ION_MAP_KIND_MARKER) {
            table_at((size_t)item, 0);
            continue;
        }
        if (!table.asked) {
            status = ask_table((size_t)item);
        }
        if (status == GOOD && ion_map_word(value, ION_MAP_AT_KIND) == ION_MAP_KIND_FIELD) {
            status = print_name(item, "field", ion_map_word(value, ION_MAP_AT_VALUE_FIELD_ID));
        }
        descriptor = ion_map_word(value, ION_MAP_AT_VALUE_DESCRIPTOR);
        if (status == GOOD) {
            status = print_annotations((size_t)ion_map_word(value, ION_MAP_AT_VALUE_ANNOTATIONS), (size_t)descriptor, &first);
        }
        if (status != GOOD) {
            return status;
        }
        byte = ion_map_word(value, ION_MAP_AT_VALUE_BYTE);
        if (ion_map_type(byte) == ION_MAP_TYPE_SYMBOL && !ion_map_is_null(byte)) {
            if (ion_map_scalar(map, length, start, end, (size_t)descriptor, LIMIT, record, sizeof record) != 0) {
                return refused(record);
            }
            status = print_name(descriptor, "symbol", ion_map_word(record, ION_MAP_AT_SCALAR_NUMBER));
        }
        if (ion_map_is_container(byte)) {
            if (depth == MOST_DEPTH) {
                return print_refused(ION_MAP_REFUSAL_TOO_DEEP, descriptor);
            }
            status = print_part((size_t)ion_map_word(value, ION_MAP_AT_VALUE_BODY), position, ion_map_body_kind(byte),
                                depth + 1);
        }
        if (status != GOOD) {
            return status;
        }
        if (depth == 0 && first == TABLE_ANNOTATION && ion_map_type(byte) == ION_MAP_TYPE_STRUCT && !ion_map_is_null(byte)) {
            table_at((size_t)item, 1);
        }
    }
}

int main(int argc, char **argv)
{
    uint8_t *bytes;
    int status;

    if (argc > 2) {
        fprintf(stderr, "usage: %s [MAP]\n", argv[0]);
        return FAILED;
    }
    bytes = read_input(argc == 2 ? argv[1] : NULL, &length);
    if (bytes == NULL) {
        return FAILED;
    }
    map = bytes;
    status = print_part(0, length, ION_MAP_PART_STREAM, 0);
    free(entries);
    free(bytes);
    return flush_output() ? status : FAILED;
}
