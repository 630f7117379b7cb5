/* Small helpers over ion_map.h that callers in C and C++ would otherwise write themselves: an int as int64_t, a float as
   double, a timestamp's fields, the name of a type, the system text as bytes. They only take records and bytes apart,
   and need no more than the header and the archive. They are tested by examples/kit.c and not proved. */

#ifndef ION_MAP_KIT_H
#define ION_MAP_KIT_H

#include "ion_map.h"

#include <string.h>

/* An int's worth, where `record` is that of an int, as ion_map_scalar answers it about these map_len bytes, and int64_t
   has it: then the answer is 1. Otherwise it is 0 and *value stays: a larger int is told by its sign and magnitude. */
static inline int ion_map_get_int64(const uint8_t *map, size_t map_len, const uint8_t *record, int64_t *value)
{
    uint64_t start = ion_map_word(record, ION_MAP_AT_SCALAR_START);
    uint64_t end = ion_map_word(record, ION_MAP_AT_SCALAR_END);
    uint64_t magnitude = 0;
    uint64_t i;

    if (ion_map_word(record, ION_MAP_AT_KIND) != ION_MAP_KIND_SCALAR
        || ion_map_word(record, ION_MAP_AT_SCALAR_WHAT) != ION_MAP_WHAT_INT || end < start || map_len < end
        || end - start > 8) {
        return 0;
    }
    for (i = start; i < end; i++) {
        magnitude = magnitude << 8 | map[i];
    }
    if (ion_map_word(record, ION_MAP_AT_SCALAR_NUMBER) == 0) {
        if (magnitude > INT64_MAX) {
            return 0;
        }
        *value = (int64_t)magnitude;
    } else {
        if (magnitude == 0 || magnitude - 1 > INT64_MAX) {
            return 0;
        }
        *value = -(int64_t)(magnitude - 1) - 1; /* by way of a number that int64_t has, also for its least one */
    }
    return 1;
}

/* A float's worth, where `record` is that of a float, as ion_map_scalar answers it: then the answer is 1. The bits are
   the record's, those of a NaN and the sign of a zero too. Otherwise it is 0 and *value stays. */
static inline int ion_map_get_double(const uint8_t *record, double *value)
{
    uint64_t bits = ion_map_word(record, ION_MAP_AT_SCALAR_NUMBER);

    if (ion_map_word(record, ION_MAP_AT_KIND) != ION_MAP_KIND_SCALAR
        || ion_map_word(record, ION_MAP_AT_SCALAR_WHAT) != ION_MAP_WHAT_FLOAT) {
        return 0;
    }
    memcpy(value, &bits, sizeof bits);
    return 1;
}

/* A timestamp, taken apart. */
struct ion_map_time {
    int precision;        /* how far it goes, ION_MAP_PRECISION_...; what it doesn't have is 0 */
    int offset_known;     /* 1 where the offset is known, else 0 */
    int offset;           /* by how many minutes local time is ahead of UTC, -1439 to 1439 */
    int year;             /* this and the next are in UTC */
    int month;            /* from 1 */
    int day;              /* from 1 */
    int hour;
    int minute;
    int second;
    uint64_t coefficient; /* the second's fraction is this times ten to the exponent */
    int64_t exponent;
};

/* Takes a timestamp apart, where `record` is what ion_map_timestamp answers about one: then the answer is 1. Otherwise
   it is 0 and *time stays. */
static inline int ion_map_get_time(const uint8_t *record, struct ion_map_time *time)
{
    uint64_t fields = ion_map_word(record, ION_MAP_AT_TIMESTAMP_FIELDS);
    uint64_t offset = ion_map_word(record, ION_MAP_AT_TIMESTAMP_OFFSET);
    int64_t exponent = (int64_t)(ion_map_word(record, ION_MAP_AT_TIMESTAMP_EXPONENT) & INT64_MAX);

    if (ion_map_word(record, ION_MAP_AT_KIND) != ION_MAP_KIND_TIMESTAMP) {
        return 0;
    }
    time->precision = (int)(ion_map_word(record, ION_MAP_AT_TIMESTAMP_PRECISION) & 7);
    time->offset_known = offset != 0;
    time->offset = offset == 0 ? 0 : (int)(offset & 4095) - 1440;
    time->year = (int)(fields & 65535);
    time->month = (int)(fields >> 16 & 255);
    time->day = (int)(fields >> 24 & 255);
    time->hour = (int)(fields >> 32 & 255);
    time->minute = (int)(fields >> 40 & 255);
    time->second = (int)(fields >> 48 & 255);
    time->coefficient = ion_map_word(record, ION_MAP_AT_TIMESTAMP_COEFFICIENT);
    time->exponent = ion_map_word(record, ION_MAP_AT_TIMESTAMP_EXPONENT_NEGATIVE) == 0 ? exponent : -exponent;
    return 1;
}

/* The name of a type, ION_MAP_TYPE_..., as ion_map_type gives it: in Ion both codes of ints are one type. Never null. */
static inline const char *ion_map_type_name(uint64_t type)
{
    switch (type) {
    case ION_MAP_TYPE_NULL: return "null";
    case ION_MAP_TYPE_BOOL: return "bool";
    case ION_MAP_TYPE_INT: return "int";
    case ION_MAP_TYPE_NEGATIVE_INT: return "int";
    case ION_MAP_TYPE_FLOAT: return "float";
    case ION_MAP_TYPE_DECIMAL: return "decimal";
    case ION_MAP_TYPE_TIMESTAMP: return "timestamp";
    case ION_MAP_TYPE_SYMBOL: return "symbol";
    case ION_MAP_TYPE_STRING: return "string";
    case ION_MAP_TYPE_CLOB: return "clob";
    case ION_MAP_TYPE_BLOB: return "blob";
    case ION_MAP_TYPE_LIST: return "list";
    case ION_MAP_TYPE_SEXP: return "sexp";
    case ION_MAP_TYPE_STRUCT: return "struct";
    default: return "no type";
    }
}

/* The first ION_MAP_SYSTEM_TEXT_SIZE bytes here are the argument `system`. */
static inline const uint8_t *ion_map_system_text(void)
{
    static const uint8_t text[] = ION_MAP_SYSTEM_TEXT; /* and a zero, which isn't lent */

    return text;
}

#endif
