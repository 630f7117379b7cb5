/* A caller of the exported steps as the header has it: its records are bytes, and words are read by ion_map_word. */

#include "../include/ion_map.h"

/* A part of the map: its span, where to go on, and what it is. */
struct part {
    size_t start;
    size_t end;
    size_t at;
    uint64_t kind;
};

enum { LIMIT = ION_MAP_DEFAULT_ANNOTATIONS };

/* What is returned where a step was refused, or there is no room for a part. */
static const uint64_t FAILED = UINT64_MAX;

static struct part body_of(const uint8_t *record, uint64_t byte, size_t end)
{
    struct part body;

    body.start = body.at = (size_t)ion_map_word(record, ION_MAP_AT_VALUE_BODY);
    body.end = end;
    body.kind = ion_map_body_kind(byte);
    return body;
}

/* How many items there are, and the sum of the positions where they end: one call for each item and each end, a
   container's body before what follows it. `above` has room for `room` parts. */
uint64_t header_step(const uint8_t *map, size_t len, uint64_t *ends_sum, struct part *above, size_t room)
{
    uint8_t record[ION_MAP_RECORD_SIZE];
    struct part part = {0, len, 0, ION_MAP_PART_STREAM};
    size_t depth = 0;
    uint64_t items = 0, sum = 0;

    for (;;) {
        uint64_t byte;

        if (ion_map_step(map, len, part.start, part.end, part.at, part.kind, LIMIT, record, sizeof record) != 0) {
            return FAILED;
        }
        if (ion_map_word(record, ION_MAP_AT_KIND) == ION_MAP_KIND_END) {
            if (depth == 0) {
                *ends_sum = sum;
                return items;
            }
            part = above[--depth];
            continue;
        }
        items++;
        part.at = (size_t)ion_map_word(record, ION_MAP_AT_VALUE_END);
        sum += part.at;
        byte = ion_map_word(record, ION_MAP_AT_VALUE_BYTE);
        if (ion_map_is_container(byte)) {
            if (depth == room) {
                return FAILED;
            }
            above[depth++] = part;
            part = body_of(record, byte, part.at);
        }
    }
}

/* The same by `batch` records a call; the bodies that a call hands out are put on a stack and read later. */
uint64_t header_steps(const uint8_t *map, size_t len, uint64_t *ends_sum, uint8_t *records, size_t batch,
                      struct part *parts, size_t room)
{
    struct part first = {0, len, 0, ION_MAP_PART_STREAM};
    size_t waiting = 1;
    uint64_t items = 0, sum = 0;

    parts[0] = first;
    while (waiting > 0) {
        struct part *part = &parts[--waiting];
        uint64_t count = 0;
        const uint8_t *record = records, *last;

        if (ion_map_steps(map, len, part->start, part->end, part->at, part->kind, LIMIT, records,
                          batch * ION_MAP_RECORD_SIZE, &count) != 0
            || waiting + count >= room) {
            return FAILED;
        }
        last = records + (count - 1) * ION_MAP_RECORD_SIZE;
        if (ion_map_word(last, ION_MAP_AT_KIND) == ION_MAP_KIND_END) {
            count--;
        } else {
            part->at = (size_t)ion_map_word(last, ION_MAP_AT_VALUE_END);
            waiting++;
        }
        items += count;
        for (; count > 0; count--, record += ION_MAP_RECORD_SIZE) {
            uint64_t byte = ion_map_word(record, ION_MAP_AT_VALUE_BYTE);
            size_t end = (size_t)ion_map_word(record, ION_MAP_AT_VALUE_END);

            sum += end;
            if (ion_map_is_container(byte)) {
                parts[waiting++] = body_of(record, byte, end);
            }
        }
    }
    *ends_sum = sum;
    return items;
}
