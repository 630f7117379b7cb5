/* Loops without tests, to hold a reader against: they take every length at its word.

   They pass from item to item by descriptor and length and go into every container. Nothing is tested but
   that they stay inside the part: no marker's last byte, no reserved byte, no float's length, no wrapper's
   length, no nine-byte limit. So they aren't readers; on a good map they meet the same items. They are plain
   code, not the limit of what can be reached: our walk passes them on some maps. */

#include "../include/ion_map.h"

#include <stddef.h>
#include <stdint.h>

enum { DEEPEST = 64 };

/* What is left of a VarUInt at *at; where the part ends first, the part's end. */
static inline uint64_t var_uint(const uint8_t *map, size_t end, size_t *at)
{
    uint64_t value = 0;

    while (*at < end) {
        uint8_t byte = map[(*at)++];

        value = value << 7 | (byte & 127);
        if (byte & 128) {
            break;
        }
    }
    return value;
}

/* Where `length` bytes from `at` on end, at most at the part's end. */
static inline size_t past(size_t at, size_t end, uint64_t length)
{
    return length < end - at ? at + length : end;
}

/* Both loops: `records` says whether records are written, and is a constant at each call. */
static inline uint64_t skip(const uint8_t *map, size_t len, uint64_t *ends_sum, int records,
                            uint64_t *record, size_t room)
{
    size_t ends[DEEPEST];
    uint8_t kinds[DEEPEST];
    size_t depth = 0, at = 0, end = len, used = 0;
    uint8_t kind = 0;
    uint64_t items = 0, sum = 0;

    for (;;) {
        size_t start = at, annotations, descriptor, body;
        uint64_t id = 0, length;
        uint8_t byte, type, code;

        if (at >= end) {
            if (depth == 0) {
                break;
            }
            depth--;
            end = ends[depth];
            kind = kinds[depth];
            continue;
        }
        if (kind == 2) {
            id = var_uint(map, end, &at);
            if (at >= end) {
                continue;
            }
        }
        annotations = descriptor = at;
        byte = map[at++];
        if (byte < 15) {
            length = byte == 14 ? var_uint(map, end, &at) : byte; /* moves `at`, so it comes first */
            at = past(at, end, length);
            continue;
        }
        if (byte >= 0xE0) {
            if (byte == 0xE0) {
                items++;
                at = past(at, end, 3);
                sum += at;
                if (records) {
                    uint64_t *r = record + ION_MAP_RECORD_WORDS * used;

                    r[0] = 1, r[1] = byte, r[2] = start, r[3] = map[start + 1], r[4] = map[start + 2];
                    r[5] = at, r[6] = at, r[7] = 0, r[8] = 0;
                    used = used + 1 == room ? 0 : used + 1;
                }
                continue;
            }
            if ((byte & 15) == 14) {
                var_uint(map, end, &at);
            }
            length = var_uint(map, end, &at);
            annotations = at;
            at = descriptor = past(at, end, length);
            if (at >= end) {
                continue;
            }
            byte = map[at++];
        }
        type = byte >> 4;
        code = byte & 15;
        if (type < 2 || code == 15) {
            length = 0;
        } else if (code == 14 || byte == 0xD1) {
            length = var_uint(map, end, &at);
        } else {
            length = code;
        }
        body = at;
        at = past(at, end, length);
        items++;
        sum += at;
        if (records) {
            uint64_t *r = record + ION_MAP_RECORD_WORDS * used;

            r[0] = kind == 2 ? 3 : 2, r[1] = byte, r[2] = start, r[3] = annotations, r[4] = descriptor;
            r[5] = body, r[6] = at, r[7] = id, r[8] = at - body;
            used = used + 1 == room ? 0 : used + 1;
        }
        if (type >= 11 && type <= 13 && code != 15 && depth < DEEPEST) {
            ends[depth] = end;
            kinds[depth] = kind;
            depth++;
            end = at;
            at = body;
            kind = type == 13 ? 2 : 1;
        }
    }
    *ends_sum = sum;
    return items;
}

/* How many items there are, and the sum of the positions where they end. */
uint64_t skip_count(const uint8_t *map, size_t len, uint64_t *ends_sum)
{
    return skip(map, len, ends_sum, 0, NULL, 0);
}

/* The same, and each item's record is put into one of `room` places in turn. */
uint64_t skip_records(const uint8_t *map, size_t len, uint64_t *ends_sum, uint64_t *record, size_t room)
{
    return skip(map, len, ends_sum, 1, record, room);
}
