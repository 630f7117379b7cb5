/* Asks every function of ion_map.h and of ion_map_kit.h about small maps, and checks the answers.

     cc -std=c99 -O2 -I include examples/kit.c target/libion_map.a -o kit && ./kit

   Returns 0 where all are as they should be; otherwise it says what differs and returns 1. */

#include "ion_map.h"
#include "ion_map_kit.h"

#include <inttypes.h>
#include <stdio.h>
#include <string.h>

static const uint8_t map[] = {
    0xE0, 0x01, 0x00, 0xEA,       /*  0: a marker, Ion 1.0 */
    0xE8, 0x81, 0x84,             /*  4: a wrapper with the annotation 4, */
    0xD5, 0x84, 0x00,             /*  7: in it a struct that begins with a pad, */
    0x85, 0x21, 0x07,             /* 10: and whose field 5 is the int 7 */
    0x82, 0x68, 0x69,             /* 13: the string "hi" */
    0x52, 0xC1, 0x63,             /* 16: the decimal 9.9: exponent -1, coefficient 99 */
    0x48, 0x3F, 0xF8, 0, 0, 0, 0, 0, 0 /* 19: the float 1.5 */
};
enum { LENGTH = sizeof map, LIMIT = ION_MAP_DEFAULT_ANNOTATIONS, DEPTH = ION_MAP_DEFAULT_DEPTH }; /* LENGTH is 28 */

typedef uint64_t words[ION_MAP_RECORD_WORDS];

static uint8_t record[ION_MAP_RECORD_SIZE];
static int checks;
static int differing;

static void check(const char *what, uint64_t is, uint64_t should_be)
{
    checks++;
    if (is != should_be) {
        printf("%s: %" PRIu64 " instead of %" PRIu64 "\n", what, is, should_be);
        differing++;
    }
}

/* Compares a record, and fills it, so that nothing of it is in the next one. */
static void check_words(const char *what, uint8_t *is, const uint64_t *should_be)
{
    size_t i;

    for (i = 0; i < ION_MAP_RECORD_WORDS; i++) {
        char word[80];

        snprintf(word, sizeof word, "%s, word %u", what, (unsigned)i);
        check(word, ion_map_word(is, i), should_be[i]);
    }
    memset(is, 0xAA, ION_MAP_RECORD_SIZE);
}

static void check_step(void)
{
    static const words marker = {ION_MAP_KIND_MARKER, 0xE0, 0, 1, 0, 4, 4, 0, 0};
    static const words value = {ION_MAP_KIND_VALUE, 0xD5, 4, 6, 7, 8, 13, 0, 5};
    static const words field = {ION_MAP_KIND_FIELD, 0x21, 10, 11, 11, 12, 13, 5, 1};
    static const words end = {ION_MAP_KIND_END, 0, 28, 0, 0, 0, 0, 0, 0};
    static const words cut = {ION_MAP_KIND_REFUSED, ION_MAP_REFUSAL_VALUE_CUT, 13, 0, 0, 0, 0, 0, 0};
    static const uint8_t later[] = {0x00, 0xE0, 0x01, 0x01, 0xEA}; /* a pad, and a marker that isn't Ion 1.0's */
    static const words other = {ION_MAP_KIND_REFUSED, ION_MAP_REFUSAL_NOT_VERSION_1_0, 1, 0, 0, 0, 0, 0, 0};
    uint64_t byte;

    check("marker", ion_map_step(map, LENGTH, 0, LENGTH, 0, ION_MAP_PART_STREAM, LIMIT, record, sizeof record), 0);
    check_words("marker", record, marker);
    check("struct", ion_map_step(map, LENGTH, 0, LENGTH, 4, ION_MAP_PART_STREAM, LIMIT, record, sizeof record), 0);
    byte = ion_map_word(record, ION_MAP_AT_VALUE_BYTE);
    check("the struct's body's length", ion_map_word(record, ION_MAP_AT_LENGTH), 5);
    check_words("struct", record, value);
    check("the struct's type", ion_map_type(byte), ION_MAP_TYPE_STRUCT);
    check("the struct is null", ion_map_is_null(byte) != 0, 0);
    check("the struct is a container", ion_map_is_container(byte) != 0, 1);
    check("the struct's body", ion_map_body_kind(byte), ION_MAP_PART_STRUCT);
    check("field", ion_map_step(map, LENGTH, 8, 13, 8, ION_MAP_PART_STRUCT, LIMIT, record, sizeof record), 0);
    check_words("field", record, field);
    check("end", ion_map_step(map, LENGTH, 0, LENGTH, LENGTH, ION_MAP_PART_STREAM, LIMIT, record, sizeof record), 0);
    check_words("end", record, end);
    check("cut", ion_map_step(map, 15, 0, 15, 13, ION_MAP_PART_STREAM, LIMIT, record, sizeof record), 8);
    check_words("cut", record, cut);
    check("other version", ion_map_step(later, sizeof later, 0, sizeof later, 0, 0, LIMIT, record, sizeof record), 60);
    check_words("other version", record, other);
    check("position outside", ion_map_step(map, LENGTH, 0, LENGTH, SIZE_MAX, 0, LIMIT, record, sizeof record), 50);
    check("short record", ion_map_step(map, LENGTH, 0, LENGTH, 0, 0, LIMIT, record, sizeof record - 1), 51);
    check("no room for the length",
          ion_map_step(map, LENGTH, 0, LENGTH, 0, 0, LIMIT, record, sizeof record - ION_MAP_WORD_SIZE), 51);
}

static void check_bounded(void)
{
    static const uint8_t pads[] = {0x00, 0x00, 0x00, 0x01}; /* three pads, and one that is cut short */
    static const uint8_t fields[] = {0x80, 0x00, 0x80, 0x00};
    static const words more = {ION_MAP_KIND_MORE, 2, 2, 0, 0, 0, 0, 0, 0};
    static const words cut = {ION_MAP_KIND_REFUSED, ION_MAP_REFUSAL_PAD_CUT, 4, 0, 0, 0, 0, 0, 0};
    static const words last = {ION_MAP_KIND_MORE, 1, 3, 0, 0, 0, 0, 0, 0};
    static const words end = {ION_MAP_KIND_END, 0, 3, 0, 0, 0, 0, 0, 0};
    static const words field = {ION_MAP_KIND_FIELD, 0x21, 10, 11, 11, 12, 13, 5, 1};
    static const words before_id = {ION_MAP_KIND_MORE, 1, 2, 0, 0, 0, 0, 0, 0};
    static const words none = {ION_MAP_KIND_REFUSED, ION_MAP_REFUSAL_NO_PADS_ALLOWED, 0, 0, 0, 0, 0, 0, 0};

    check("more pads", ion_map_step_bounded(pads, 4, 0, 4, 0, 0, 2, LIMIT, record, sizeof record), 0);
    check_words("more pads", record, more);
    check("the next bound", ion_map_step_bounded(pads, 4, 0, 4, 2, 0, 1, LIMIT, record, sizeof record), 0);
    check_words("the next bound", record, last);
    check("the cut pad", ion_map_step_bounded(pads, 4, 0, 4, 3, 0, 1, LIMIT, record, sizeof record), 6);
    check_words("the cut pad", record, cut);
    check("up to the end", ion_map_step_bounded(pads, 4, 0, 3, 0, 0, 3, LIMIT, record, sizeof record), 0);
    check_words("up to the end", record, end);
    check("a field", ion_map_step_bounded(map, LENGTH, 8, 13, 8, ION_MAP_PART_STRUCT, 1, LIMIT, record, sizeof record), 0);
    check_words("a field", record, field);
    check("before an ID",
          ion_map_step_bounded(fields, 4, 0, 4, 0, ION_MAP_PART_STRUCT, 1, LIMIT, record, sizeof record), 0);
    check_words("before an ID", record, before_id);
    check("no pads", ion_map_step_bounded(pads, 4, 0, 4, 0, 0, 0, LIMIT, record, sizeof record), 67);
    check_words("no pads", record, none);
    check("no pads outside", ion_map_step_bounded(pads, 4, 0, 5, 0, 0, 0, LIMIT, record, sizeof record), 50);
    check("no pads, wrong limit", ion_map_step_bounded(pads, 4, 0, 5, 0, 0, 0, 254, record, sizeof record), 68);
    check("no pads, short record", ion_map_step_bounded(pads, 4, 0, 5, 0, 0, 0, 254, record, sizeof record - 1), 51);
}

static void check_ids(void)
{
    check("IDs of the step at the pad", ion_map_ids(map, LENGTH, 8, 13, 8, LIMIT), 2);
    check("IDs of the step behind it", ion_map_ids(map, LENGTH, 8, 13, 10, LIMIT), 1);
    check("IDs of the last step", ion_map_ids(map, LENGTH, 8, 13, 13, LIMIT), 0);
    check("IDs up to a pad's end", ion_map_ids(map, LENGTH, 8, 10, 8, LIMIT), 1);
    check("an ID with nothing behind it", ion_map_ids(map, LENGTH, 8, 9, 8, LIMIT), 1);
    check("IDs outside", ion_map_ids(map, LENGTH, 8, SIZE_MAX, 8, LIMIT), 0);
    check("IDs before the start", ion_map_ids(map, LENGTH, 9, 13, 8, LIMIT), 0);
}

static void check_whole_map(void)
{
    static const uint64_t counts[ION_MAP_CHECK_WORDS] = {ION_MAP_KIND_CHECKED, 1, 1, 0, 0, 1, 1, 1, 0, 0, 1, 0, 0, 0, 0, 1};
    static const uint64_t deep[ION_MAP_CHECK_WORDS] = {ION_MAP_KIND_REFUSED, ION_MAP_REFUSAL_TOO_DEEP, 1};
    static const uint8_t lists[] = {0xB1, 0xB0};
    uint8_t out[ION_MAP_CHECK_SIZE];
    size_t i;

    check("check", ion_map_check(map, LENGTH, LIMIT, DEPTH, out, sizeof out), 0);
    for (i = 0; i < ION_MAP_CHECK_WORDS; i++)
        check("a count", ion_map_word(out, i), counts[i]);
    check("check of a list at the depth", ion_map_check(lists, sizeof lists, LIMIT, 1, out, sizeof out), 37);
    for (i = 0; i < ION_MAP_CHECK_WORDS; i++)
        check("a word of its refusal", ion_map_word(out, i), deep[i]);
    check("check of a cut map", ion_map_check(map, LENGTH - 1, LIMIT, DEPTH, out, sizeof out), 8);
    check("check with a limit out of range", ion_map_check(map, LENGTH, LIMIT, 65, out, sizeof out), 68);
    check("check with a short buffer", ion_map_check(map, LENGTH, LIMIT, DEPTH, out, sizeof out - 1), 51);
}

static void check_annotation_and_step_in(void)
{
    static const words annotation = {ION_MAP_KIND_ANNOTATION, 0, 6, 4, 0, 0, 7, 0, 0};
    static const words end = {ION_MAP_KIND_END, 0, 7, 0, 0, 0, 0, 0, 0};
    static const words body = {ION_MAP_KIND_BODY, ION_MAP_PART_STRUCT, 7, 0, 0, 8, 13, 0, 5};

    check("annotation", ion_map_annotation(map, LENGTH, 6, 7, 6, record, sizeof record), 0);
    check_words("annotation", record, annotation);
    check("annotations' end", ion_map_annotation(map, LENGTH, 6, 7, 7, record, sizeof record), 0);
    check_words("annotations' end", record, end);
    check("stepping in", ion_map_step_in(map, LENGTH, 0, LENGTH, 4, LIMIT, record, sizeof record), 0);
    check_words("stepping in", record, body);
    check("stepping into a string", ion_map_step_in(map, LENGTH, 0, LENGTH, 13, LIMIT, record, sizeof record), 52);
}

static void check_scalar(void)
{
    static const words number = {ION_MAP_KIND_SCALAR, 0x21, 11, ION_MAP_WHAT_INT, 0, 12, 13, 0, 1};
    static const words string = {ION_MAP_KIND_SCALAR, 0x82, 13, ION_MAP_WHAT_STRING, 0, 14, 16, 0, 2};
    uint64_t bits;
    double real;

    check("int", ion_map_scalar(map, LENGTH, 8, 13, 11, LIMIT, record, sizeof record), 0);
    check_words("int", record, number);
    check("string", ion_map_scalar(map, LENGTH, 0, LENGTH, 13, LIMIT, record, sizeof record), 0);
    check("text's length", ion_map_word(record, ION_MAP_AT_LENGTH), 2);
    check("text", memcmp(map + ion_map_word(record, ION_MAP_AT_SCALAR_START), "hi", 2) != 0, 0);
    check_words("string", record, string);
    check("float", ion_map_scalar(map, LENGTH, 0, LENGTH, 19, LIMIT, record, sizeof record), 0);
    bits = ion_map_word(record, ION_MAP_AT_SCALAR_NUMBER);
    memcpy(&real, &bits, sizeof real);
    check("float is 1.5", real == 1.5, 1);
    check("a pad is no scalar", ion_map_scalar(map, LENGTH, 8, 13, 9, LIMIT, record, sizeof record), 22);
}

static void check_number(void)
{
    static const words length = {ION_MAP_KIND_NUMBER, 0, 5, 1, 0, 6, 6, 0, 0};
    static const words exponent = {ION_MAP_KIND_NUMBER, 1, 17, 1, 0, 18, 18, 0, 0};
    static const words coefficient = {ION_MAP_KIND_NUMBER, 0, 18, 99, 0, 19, 19, 0, 0};

    check("VarUInt", ion_map_number(map, LENGTH, 4, 13, 5, ION_MAP_FORM_VAR_UINT, 0, record, sizeof record), 0);
    check_words("VarUInt", record, length);
    check("VarInt", ion_map_number(map, LENGTH, 17, 19, 17, ION_MAP_FORM_VAR_INT, 0, record, sizeof record), 0);
    check_words("VarInt", record, exponent);
    check("Int", ion_map_number(map, LENGTH, 17, 19, 18, ION_MAP_FORM_INT, 1, record, sizeof record), 0);
    check_words("Int", record, coefficient);
    check("cut Int", ion_map_number(map, LENGTH, 17, 19, 18, ION_MAP_FORM_INT, SIZE_MAX, record, sizeof record), 9);
}

static void check_decimal(void)
{
    static const words decimal = {ION_MAP_KIND_DECIMAL, 0, 17, 99, 1, 19, 19, 1, 0};
    static const words zero = {ION_MAP_KIND_DECIMAL, 0, 19, 0, 0, 19, 19, 0, 0};
    static const uint8_t body[] = {0x40, 0x83, 0x80, 0x81, 0x01}; /* an exponent of two bytes, a coefficient of two, one more */
    static const words two = {ION_MAP_KIND_DECIMAL, 1, 0, 0, 1, 3, 4, 3, 0};
    static const words cut = {ION_MAP_KIND_REFUSED, ION_MAP_REFUSAL_VAR_INT_CUT, 5, 0, 0, 0, 0, 0, 0};

    check("decimal", ion_map_decimal(map, LENGTH, 17, 19, record, sizeof record), 0);
    check_words("decimal", record, decimal);
    check("empty decimal", ion_map_decimal(map, LENGTH, 19, 19, record, sizeof record), 0);
    check_words("empty decimal", record, zero);
    check("decimal of two and two bytes", ion_map_decimal(body, sizeof body, 0, 4, record, sizeof record), 0);
    check_words("decimal of two and two bytes", record, two);
    check("cut decimal", ion_map_decimal(body, sizeof body, 4, 5, record, sizeof record), 4);
    check_words("cut decimal", record, cut);
    check("decimal outside", ion_map_decimal(map, LENGTH, 17, SIZE_MAX, record, sizeof record), 50);
}

static void check_timestamp(void)
{
    static const uint8_t bakes[] = {
        0x6B, 0x43, 0xA4, 0x0F, 0xE8, 0x82, 0x9D, 0x96, 0x9E, 0x8F, 0xC3, 0x07, /*  0: 2024-02-29T22:30:15.007Z at -07:00 */
        0xE6, 0x81, 0x84, 0x63, 0xC0, 0x0F, 0xD0                                /* 12: annotated, the year 2000 */
    };
    enum { BAKES = sizeof bakes };
    static const words full = {ION_MAP_KIND_TIMESTAMP, ION_MAP_PRECISION_FRACTION, 0, 1020, 0xF1E161D0207E8u, 3, 1, 7, 0};
    static const words year = {ION_MAP_KIND_TIMESTAMP, ION_MAP_PRECISION_YEAR, 15, 0, 2000, 0, 0, 0, 0};
    static const words other = {ION_MAP_KIND_SCALAR, 0x82, 13, ION_MAP_WHAT_STRING, 0, 14, 16, 0, 2};
    static const uint8_t leap[] = {0x65, 0x80, 0x0E, 0xEC, 0x82, 0x9D}; /* 1900-02-29 */
    static const words none = {ION_MAP_KIND_REFUSED, ION_MAP_REFUSAL_TIMESTAMP_OUT_OF_RANGE, 0, 0, 0, 0, 0, 0, 0};

    check("timestamp", ion_map_timestamp(bakes, BAKES, 0, BAKES, 0, LIMIT, record, sizeof record), 0);
    check_words("timestamp", record, full);
    check("year", ion_map_timestamp(bakes, BAKES, 0, BAKES, 12, LIMIT, record, sizeof record), 0);
    check_words("year", record, year);
    check("no timestamp", ion_map_timestamp(map, LENGTH, 0, LENGTH, 13, LIMIT, record, sizeof record), 0);
    check_words("no timestamp", record, other);
    check("no leap year", ion_map_timestamp(leap, sizeof leap, 0, sizeof leap, 0, LIMIT, record, sizeof record), 62);
    check_words("no leap year", record, none);
}

static void check_many(void)
{
    static const words value = {ION_MAP_KIND_VALUE, 0xD5, 4, 6, 7, 8, 13, 0, 5};
    static const words end = {ION_MAP_KIND_END, 0, 28, 0, 0, 0, 0, 0, 0};
    uint8_t records[8 * ION_MAP_RECORD_SIZE];
    uint64_t count = 0;

    check("steps", ion_map_steps(map, LENGTH, 0, LENGTH, 0, 0, LIMIT, records, sizeof records, &count), 0);
    check("the steps' count", count, 6); /* the marker, four values, the end */
    check_words("the second step", records + ION_MAP_RECORD_SIZE, value);
    check_words("the last step", records + 5 * ION_MAP_RECORD_SIZE, end);
    check("steps without room",
          ion_map_steps(map, LENGTH, 0, LENGTH, 0, 0, LIMIT, records, ION_MAP_RECORD_SIZE - 1, &count), 51);
    check("their count", count, 0);
    check("walked", ion_map_walked(map, LENGTH, UINT64_MAX, LIMIT, DEPTH), 6); /* the marker, four values, the field */
    check("walked two", ion_map_walked(map, LENGTH, 2, LIMIT, DEPTH), 2);
}

static void check_limits(void)
{
    static const words value = {ION_MAP_KIND_VALUE, 0x20, 0, 5, 261, 262, 262, 0, 0};
    static const words refused = {ION_MAP_KIND_REFUSED, ION_MAP_REFUSAL_LIMIT_OUT_OF_RANGE, 0, 0, 0, 0, 0, 0, 0};
    static const uint8_t lists[] = {0xB2, 0xB1, 0xB0}; /* a list in a list in a list */
    static const size_t wrong_limits[] = {0, ION_MAP_LEAST_ANNOTATIONS - 1, ION_MAP_MOST_ANNOTATIONS + 1, SIZE_MAX};
    static const size_t wrong_depths[] = {ION_MAP_LEAST_DEPTH - 1, ION_MAP_MOST_DEPTH + 1, SIZE_MAX};
    uint8_t wrapped[262] = {0xEE, 0x02, 0x83, 0x02, 0x80}; /* 256 bytes of annotations, and the int 0 */
    size_t i;
    uint64_t count = 0;

    memset(wrapped + 5, 0x84, 256);
    wrapped[261] = 0x20;
    check("256 bytes", ion_map_step(wrapped, 262, 0, 262, 0, 0, LIMIT, record, sizeof record), 26);
    check("within 256", ion_map_step(wrapped, 262, 0, 262, 0, 0, 256, record, sizeof record), 0);
    check_words("within 256", record, value);
    check("read", ion_map_scalar(wrapped, 262, 0, 262, 0, ION_MAP_MOST_ANNOTATIONS, record, sizeof record), 0);
    check("walked to it", ion_map_walked(wrapped, 262, 9, LIMIT, DEPTH), 0);
    check("walked past it", ion_map_walked(wrapped, 262, 9, 256, DEPTH), 1);
    for (i = 0; i < sizeof wrong_limits / sizeof *wrong_limits; i++) {
        size_t limit = wrong_limits[i];

        check("wrong limit", ion_map_step(map, LENGTH, 9, 0, 0, 7, limit, record, sizeof record), 68);
        check_words("wrong limit", record, refused);
        check("wrong limit, stepping in", ion_map_step_in(map, LENGTH, 0, LENGTH, 4, limit, record, sizeof record), 68);
        check("wrong limit, scalar", ion_map_scalar(map, LENGTH, 0, LENGTH, 13, limit, record, sizeof record), 68);
        check("wrong limit, steps", ion_map_steps(map, LENGTH, 0, LENGTH, 0, 0, limit, record, sizeof record, &count), 68);
        check("wrong limit, count", count, 1);
        check("wrong limit, walk", ion_map_walked(map, LENGTH, 9, limit, DEPTH), 0);
        check("wrong limit, IDs", ion_map_ids(map, LENGTH, 8, 13, 8, limit), 0);
        check("short record", ion_map_step(map, LENGTH, 0, LENGTH, 0, 0, limit, record, sizeof record - 1), 51);
    }
    check("depth 1", ion_map_walked(lists, sizeof lists, 9, LIMIT, ION_MAP_LEAST_DEPTH), 2);
    check("depth 2", ion_map_walked(lists, sizeof lists, 9, LIMIT, 2), 3);
    check("depth 64", ion_map_walked(lists, sizeof lists, 9, LIMIT, ION_MAP_MOST_DEPTH), 3);
    for (i = 0; i < sizeof wrong_depths / sizeof *wrong_depths; i++) {
        check("wrong depth", ion_map_walked(lists, sizeof lists, 9, LIMIT, wrong_depths[i]), 0);
    }
}

static void check_packed(void)
{
    static const uint8_t padded[] = {
        0xE0, 0x01, 0x00, 0xEA,                   /*  0: the marker */
        0xE9, 0x00, 0x81, 0x84,                   /*  4: a wrapper with the annotation 4, its length in two bytes, */
        0xD5, 0x84, 0x00, 0x85, 0x21, 0x07,       /*  8: in it a struct with a pad and the field 5 */
        0xD1, 0x82, 0x84, 0x00,                   /* 14: an ordered struct with nothing but a pad */
        0x01, 0xFF                                /* 18: a pad */
    };
    static const words size = {ION_MAP_KIND_PACKED_SIZE, 0, 0, 12, 0, 0, 0, 0, 0};
    static const words refused = {ION_MAP_KIND_REFUSED, ION_MAP_REFUSAL_PAD_CUT, 19, 0, 0, 0, 0, 0, 0};
    static const words written = {ION_MAP_KIND_PACKED, 0, 0, 12, 0, 0, 0, 0, 0};
    static const words no_room = {ION_MAP_KIND_REFUSED, ION_MAP_REFUSAL_NO_ROOM_TO_PACK, 12, 0, 0, 0, 0, 0, 0};
    static const uint8_t expected[] = {
        0xE0, 0x01, 0x00, 0xEA, 0xE6, 0x81, 0x84, 0xD3, 0x85, 0x21, 0x07, 0xD0, 0xAA, 0xAA
    };
    uint8_t packed[sizeof expected];

    memset(packed, 0xAA, sizeof packed);
    check("no room", ion_map_pack(padded, 20, LIMIT, DEPTH, packed, 11, record, sizeof record), 69);
    check_words("no room", record, no_room);
    check("nothing written", packed[0], 0xAA);
    check("pack, short record", ion_map_pack(padded, 20, LIMIT, DEPTH, packed, 14, record, sizeof record - 1), 51);
    check("nothing written", packed[0], 0xAA);
    check("pack", ion_map_pack(padded, 20, LIMIT, DEPTH, packed, 14, record, sizeof record), 0);
    check_words("pack", record, written);
    check("the packed map", memcmp(packed, expected, sizeof expected) != 0, 0);
    check("packed size", ion_map_packed_size(padded, 20, LIMIT, DEPTH, record, sizeof record), 0);
    check_words("packed size", record, size);
    check("packed size of a cut map", ion_map_packed_size(padded, 19, LIMIT, DEPTH, record, sizeof record), 6);
    check_words("packed size of a cut map", record, refused);
    check("packed size, wrong depth", ion_map_packed_size(padded, 20, LIMIT, 65, record, sizeof record), 68);
    check("packed size, short record", ion_map_packed_size(padded, 20, LIMIT, 65, record, sizeof record - 1), 51);
}

/* What a call wrote: its length, the bytes, and that the byte behind them stayed. */
static void check_written(const char *what, uint64_t returned, const uint8_t *to, const char *bytes, size_t length)
{
    words written = {ION_MAP_KIND_WRITTEN, 0, 0, 0, 0, 0, 0, 0, 0};

    written[ION_MAP_AT_WRITTEN_LENGTH] = length;
    check(what, returned, 0);
    check_words(what, record, written);
    check(what, memcmp(to, bytes, length) != 0, 0);
    check(what, to[length], 0xAA);
}

static void check_writes(void)
{
    static const uint8_t seven[] = {0x00, 0x07};
    static const uint8_t text[] = {'t', 'r', 'e', 'e'};
    static const uint8_t body[] = {0x21, 0x07, 0x20};
    static const uint8_t id[] = {0x84};
    static const words no_room = {ION_MAP_KIND_REFUSED, ION_MAP_REFUSAL_NO_ROOM_TO_WRITE, 5, 0, 0, 0, 0, 0, 0};
    static const words no_pad = {ION_MAP_KIND_REFUSED, ION_MAP_REFUSAL_NO_SUCH_LENGTH, 0, 0, 0, 0, 0, 0, 0};
    enum { SIZE = ION_MAP_RECORD_SIZE };
    uint8_t to[16];

#define WRITTEN(what, call, bytes) (memset(to, 0xAA, sizeof to), check_written(what, call, to, bytes, sizeof bytes - 1))
    WRITTEN("a null int", ion_map_write_null(ION_MAP_TYPE_INT, to, 16, record, SIZE), "\x2F");
    WRITTEN("a bool", ion_map_write_bool(1, to, 16, record, SIZE), "\x11");
    WRITTEN("an int", ion_map_write_int(seven, 2, 1, to, 16, record, SIZE), "\x31\x07");
    WRITTEN("an int of no bytes", ion_map_write_int(NULL, 0, 0, to, 16, record, SIZE), "\x20");
    WRITTEN("a float", ion_map_write_float(0x3FF0000000000000u, to, 16, record, SIZE), "\x48\x3F\xF0\0\0\0\0\0\0");
    WRITTEN("a float of zero", ion_map_write_float(0, to, 16, record, SIZE), "\x40");
    WRITTEN("a symbol", ion_map_write_symbol(256, to, 16, record, SIZE), "\x72\x01\x00");
    WRITTEN("a pad", ion_map_write_pad(3, to, 16, record, SIZE), "\x02\x00\x00");
    WRITTEN("a string", ion_map_write_scalar(ION_MAP_TYPE_STRING, text, 4, to, 16, record, SIZE), "\x84tree");
    WRITTEN("a list", ion_map_write_container(ION_MAP_TYPE_LIST, body, 3, LIMIT, DEPTH, to, 16, record, SIZE), "\xB3\x21\x07\x20");
    WRITTEN("a wrapper", ion_map_write_wrapper(id, 1, body, 2, LIMIT, DEPTH, to, 16, record, SIZE), "\xE4\x81\x84\x21\x07");
#undef WRITTEN
    memset(to, 0xAA, sizeof to);
    check("no room for a wrapper", ion_map_write_wrapper(id, 1, body, 2, LIMIT, DEPTH, to, 4, record, SIZE), 70);
    check_words("no room for a wrapper", record, no_room);
    check("a pad of no bytes", ion_map_write_pad(0, to, 16, record, SIZE), 71);
    check_words("a pad of no bytes", record, no_pad);
    check("a bool of 2", ion_map_write_bool(2, to, 16, record, SIZE), 50);
    check("a wrapper around more than a value", ion_map_write_wrapper(id, 1, body, 3, LIMIT, DEPTH, to, 16, record, SIZE), 29);
    check("a list with a limit out of range", ion_map_write_container(ION_MAP_TYPE_LIST, body, 3, 1, DEPTH, to, 16, record, SIZE), 68);
    check("a short record", ion_map_write_bool(1, to, 16, record, SIZE - 1), 51);
    check("nothing written", to[0], 0xAA);
}

static void check_symbols(void)
{
    static const uint8_t names[] = {
        0xEE, 0x8E, 0x81, 0x83,             /*  0: a wrapper with the annotation 3, */
        0xDB, 0x87, 0xB9,                   /*  4: in it a struct whose field 7 is a list */
        0x84, 't', 'r', 'e', 'e',           /*  7: with the text of ID 10, */
        0x20, 0x81, 0xFF, 0x80,             /* 12: no text for 11, a bad one for 12 and an empty one for 13 */
        0x71, 0x0A                          /* 16: the symbol 10 */
    };
    static const uint8_t imports[] = {0xE5, 0x81, 0x83, 0xD2, 0x86, 0x20};
    static const uint8_t system[] = ION_MAP_SYSTEM_TEXT; /* and a zero, which isn't lent */
    static const words tree = {ION_MAP_KIND_TEXT, ION_MAP_TEXT_OF_MAP, 0, 0, 0, 8, 12, 10, 4};
    static const words name = {ION_MAP_KIND_TEXT, ION_MAP_TEXT_OF_SYSTEM, 0, 0, 0, 29, 33, 4, 4};
    static const words none = {ION_MAP_KIND_TEXT, ION_MAP_TEXT_UNKNOWN, 0, 0, 0, 0, 0, 11, 0};
    static const words list = {ION_MAP_KIND_SYMBOLS, 1, 0, 0, 0, 7, 16, 0, 9};
    static const words no_list = {ION_MAP_KIND_SYMBOLS, 0, 0, 0, 0, 0, 0, 0, 0};
    static const words bad = {ION_MAP_KIND_REFUSED, ION_MAP_REFUSAL_BAD_UTF8, 13, 0, 0, 0, 0, 0, 0};
    enum { SIZE = sizeof names, NINE = ION_MAP_SYSTEM_TEXT_SIZE };

    check("the system text's size", sizeof system - 1, NINE);
    check("text", ion_map_text(names, SIZE, system, NINE, 0, SIZE, 16, 10, LIMIT, record, sizeof record), 0);
    check_words("text", record, tree);
    check("system text", ion_map_text(names, SIZE, system, NINE, 0, SIZE, 16, 4, LIMIT, record, sizeof record), 0);
    check("its bytes", memcmp(system + ion_map_word(record, ION_MAP_AT_TEXT_START), "name", 4) != 0, 0);
    check_words("system text", record, name);
    check("unknown", ion_map_text(names, SIZE, system, NINE, 0, SIZE, SIZE, 11, LIMIT, record, sizeof record), 0);
    check_words("unknown", record, none);
    check("at the table", ion_map_text(names, SIZE, system, NINE, 0, SIZE, 0, 11, LIMIT, record, sizeof record), 0);
    check_words("at the table", record, none);
    check("bad text", ion_map_text(names, SIZE, system, NINE, 0, SIZE, 16, 12, LIMIT, record, sizeof record), 36);
    check_words("bad text", record, bad);
    check("inside an item", ion_map_text(names, SIZE, system, NINE, 0, SIZE, 5, 1, LIMIT, record, sizeof record), 50);
    check("imports", ion_map_text(imports, 6, system, NINE, 0, 6, 6, 1, LIMIT, record, sizeof record), 64);
    check("another text", ion_map_text(names, SIZE, system, NINE + 1, 9, 0, 0, 1, 0, record, sizeof record), 66);
    check("wrong limit", ion_map_text(names, SIZE, system, NINE, 9, 0, 0, 1, 0, record, sizeof record), 68);
    check("no record", ion_map_text(names, SIZE, system, 0, 0, 0, 0, 1, 0, record, sizeof record - 1), 51);
    check("symbols", ion_map_symbols(names, SIZE, system, NINE, 0, SIZE, 16, LIMIT, record, sizeof record), 0);
    check_words("symbols", record, list);
    check("no symbols", ion_map_symbols(names, SIZE, system, NINE, 0, SIZE, 0, LIMIT, record, sizeof record), 0);
    check_words("no symbols", record, no_list);
    check("by list", ion_map_symbol_text(names, SIZE, system, NINE, 7, 16, 10, LIMIT, record, sizeof record), 0);
    check_words("by list", record, tree);
    check("by no list", ion_map_symbol_text(names, SIZE, system, NINE, 0, 0, 11, LIMIT, record, sizeof record), 0);
    check_words("by no list", record, none);
}

/* A pointer whose length is 0 may be null: an empty map, no record, no system text. */
static void check_null(void)
{
    static const words end = {ION_MAP_KIND_END, 0, 0, 0, 0, 0, 0, 0, 0};
    static const words zero = {ION_MAP_KIND_DECIMAL, 0, 0, 0, 0, 0, 0, 0, 0};
    static const words empty = {ION_MAP_KIND_NUMBER, 0, 0, 0, 0, 0, 0, 0, 0};
    static const words no_list = {ION_MAP_KIND_SYMBOLS, 0, 0, 0, 0, 0, 0, 0, 0};
    static const words none = {ION_MAP_KIND_TEXT, ION_MAP_TEXT_UNKNOWN, 0, 0, 0, 0, 0, 10, 0};
    static const uint8_t system[] = ION_MAP_SYSTEM_TEXT;
    enum { NINE = ION_MAP_SYSTEM_TEXT_SIZE, SIZE = ION_MAP_RECORD_SIZE };
    uint8_t out[ION_MAP_CHECK_SIZE];
    uint64_t count = 0;
    size_t i;

    check("null, step", ion_map_step(NULL, 0, 0, 0, 0, ION_MAP_PART_STREAM, LIMIT, record, SIZE), 0);
    check_words("null, step", record, end);
    check("null, struct step", ion_map_step(NULL, 0, 0, 0, 0, ION_MAP_PART_STRUCT, LIMIT, record, SIZE), 0);
    check_words("null, struct step", record, end);
    check("null, outside", ion_map_step(NULL, 0, 0, 1, 0, ION_MAP_PART_STREAM, LIMIT, record, SIZE), 50);
    check("null, bounded", ion_map_step_bounded(NULL, 0, 0, 0, 0, ION_MAP_PART_SEQUENCE, 1, LIMIT, record, SIZE), 0);
    check_words("null, bounded", record, end);
    check("null, steps", ion_map_steps(NULL, 0, 0, 0, 0, ION_MAP_PART_STREAM, LIMIT, record, SIZE, &count), 0);
    check("null, steps' count", count, 1);
    check_words("null, steps", record, end);
    check("null, annotation", ion_map_annotation(NULL, 0, 0, 0, 0, record, SIZE), 0);
    check_words("null, annotation", record, end);
    check("null, stepping in", ion_map_step_in(NULL, 0, 0, 0, 0, LIMIT, record, SIZE), 1);
    check("null, scalar", ion_map_scalar(NULL, 0, 0, 0, 0, LIMIT, record, SIZE), 1);
    check("null, timestamp", ion_map_timestamp(NULL, 0, 0, 0, 0, LIMIT, record, SIZE), 1);
    check("null, VarUInt", ion_map_number(NULL, 0, 0, 0, 0, ION_MAP_FORM_VAR_UINT, 0, record, SIZE), 3);
    check("null, VarInt", ion_map_number(NULL, 0, 0, 0, 0, ION_MAP_FORM_VAR_INT, 0, record, SIZE), 4);
    check("null, Int", ion_map_number(NULL, 0, 0, 0, 0, ION_MAP_FORM_INT, 0, record, SIZE), 0);
    check_words("null, Int", record, empty);
    check("null, decimal", ion_map_decimal(NULL, 0, 0, 0, record, SIZE), 0);
    check_words("null, decimal", record, zero);
    check("null, IDs", ion_map_ids(NULL, 0, 0, 0, 0, LIMIT), 0);
    check("null, walked", ion_map_walked(NULL, 0, 9, LIMIT, DEPTH), 0);
    check("null, check", ion_map_check(NULL, 0, LIMIT, DEPTH, out, sizeof out), 0);
    for (i = 0; i < ION_MAP_CHECK_WORDS; i++)
        check("a count of none", ion_map_word(out, i), i == 0 ? ION_MAP_KIND_CHECKED : 0);
    check("null, symbols", ion_map_symbols(NULL, 0, system, NINE, 0, 0, 0, LIMIT, record, SIZE), 0);
    check_words("null, symbols", record, no_list);
    check("null, text", ion_map_text(NULL, 0, system, NINE, 0, 0, 0, 10, LIMIT, record, SIZE), 0);
    check_words("null, text", record, none);
    check("null, symbol's text", ion_map_symbol_text(NULL, 0, system, NINE, 0, 0, 10, LIMIT, record, SIZE), 0);
    check_words("null, symbol's text", record, none);

    check("no system text", ion_map_text(map, LENGTH, NULL, 0, 0, LENGTH, 0, 1, LIMIT, record, SIZE), 66);
    check("no system text, symbols", ion_map_symbols(map, LENGTH, NULL, 0, 0, LENGTH, 0, LIMIT, record, SIZE), 66);
    check("no system text, by list", ion_map_symbol_text(map, LENGTH, NULL, 0, 0, 0, 1, LIMIT, record, SIZE), 66);

    check("no record, step", ion_map_step(map, LENGTH, 0, LENGTH, 0, 0, LIMIT, NULL, 0), 51);
    check("no record, bounded", ion_map_step_bounded(map, LENGTH, 0, LENGTH, 0, 0, 1, LIMIT, NULL, 0), 51);
    check("no record, steps", ion_map_steps(map, LENGTH, 0, LENGTH, 0, 0, LIMIT, NULL, 0, &count), 51);
    check("no record, count", count, 0);
    check("no record, annotation", ion_map_annotation(map, LENGTH, 6, 7, 6, NULL, 0), 51);
    check("no record, stepping in", ion_map_step_in(map, LENGTH, 0, LENGTH, 4, LIMIT, NULL, 0), 51);
    check("no record, scalar", ion_map_scalar(map, LENGTH, 0, LENGTH, 13, LIMIT, NULL, 0), 51);
    check("no record, timestamp", ion_map_timestamp(map, LENGTH, 0, LENGTH, 13, LIMIT, NULL, 0), 51);
    check("no record, number", ion_map_number(map, LENGTH, 0, LENGTH, 6, 0, 0, NULL, 0), 51);
    check("no record, decimal", ion_map_decimal(map, LENGTH, 17, 19, NULL, 0), 51);
    check("no record, check", ion_map_check(map, LENGTH, LIMIT, DEPTH, NULL, 0), 51);
    check("no record, text", ion_map_text(map, LENGTH, system, NINE, 0, LENGTH, 0, 1, LIMIT, NULL, 0), 51);
    check("no record, symbols", ion_map_symbols(map, LENGTH, system, NINE, 0, LENGTH, 0, LIMIT, NULL, 0), 51);
    check("no record, by list", ion_map_symbol_text(map, LENGTH, system, NINE, 0, 0, 1, LIMIT, NULL, 0), 51);
    check("nothing at all", ion_map_step(NULL, 0, 0, 0, 0, 0, LIMIT, NULL, 0), 51);
}

/* Every value's scalar and body, read in the part that handed it out and in its own bytes, DESCRIPTOR..END: the answers
   are the same. */
static void check_own_part(void)
{
    static const uint8_t values[] = {
        0xE6, 0x81, 0x84, 0xD3, 0x85, 0x21, 0x07,       /*  0: a struct in a wrapper */
        0x8E, 0x82, 0x68, 0x69,                         /*  7: a string with a length field */
        0x12,                                           /* 11: no bool, which the step hands out */
        0x81, 0xFF,                                     /* 12: no UTF-8 */
        0x63, 0xC0, 0x0F, 0xD0,                         /* 14: the year 2000 */
        0x62, 0xC0, 0x0F,                               /* 18: a timestamp without its year's last byte */
        0xBF, 0xD0, 0xDE, 0x80, 0x4F, 0x40              /* 21: a null, two empty structs, a null, a zero */
    };
    enum { SIZE = sizeof values };
    uint8_t value[ION_MAP_RECORD_SIZE], whole[ION_MAP_RECORD_SIZE], own[ION_MAP_RECORD_SIZE];
    size_t position = 0;
    unsigned met = 0;

    while (ion_map_step(values, SIZE, 0, SIZE, position, ION_MAP_PART_STREAM, LIMIT, value, sizeof value) == 0
           && ion_map_word(value, ION_MAP_AT_KIND) == ION_MAP_KIND_VALUE) {
        size_t at = (size_t)ion_map_word(value, ION_MAP_AT_VALUE_DESCRIPTOR);

        position = (size_t)ion_map_word(value, ION_MAP_AT_VALUE_END);
        met++;
        check("own part, scalar", ion_map_scalar(values, SIZE, at, position, at, LIMIT, own, sizeof own),
              ion_map_scalar(values, SIZE, 0, SIZE, at, LIMIT, whole, sizeof whole));
        check("own part, scalar's record", memcmp(own, whole, sizeof own) != 0, 0);
        check("own part, body", ion_map_step_in(values, SIZE, at, position, at, LIMIT, own, sizeof own),
              ion_map_step_in(values, SIZE, 0, SIZE, at, LIMIT, whole, sizeof whole));
        check("own part, body's record", memcmp(own, whole, sizeof own) != 0, 0);
        check("own part, timestamp", ion_map_timestamp(values, SIZE, at, position, at, LIMIT, own, sizeof own),
              ion_map_timestamp(values, SIZE, 0, SIZE, at, LIMIT, whole, sizeof whole));
        check("own part, timestamp's record", memcmp(own, whole, sizeof own) != 0, 0);
    }
    check("values with a part of their own", met, 11);
}

/* After 51 there is no record: the buffer holds what it held. */
static void check_no_record(void)
{
    size_t i;

    memset(record, 0xAA, sizeof record);
    check("no room for a record", ion_map_step(map, LENGTH, 0, LENGTH, 0, 0, LIMIT, record, sizeof record - 1), 51);
    for (i = 0; i < sizeof record; i++) {
        check("a byte after 51", record[i], 0xAA);
    }
}

/* With as much room as the header says, nothing is refused with 70. Nobody has memory for lengths of nine bytes: what is
   tried are the lengths around each further byte. */
static void check_room(void)
{
    static const size_t lengths[] = {0, 1, 13, 14, 127, 128, 16383, 16384, 65535};
    enum { LENGTHS = sizeof lengths / sizeof *lengths, MOST = 65535, HEAD = ION_MAP_MOST_HEAD_SIZE };
    enum { SIZE = ION_MAP_RECORD_SIZE, MANY = ION_MAP_MOST_ANNOTATIONS };
    static uint8_t zeros[MOST], ids[MOST], value[MOST + HEAD], to[MOST + MOST + HEAD + ION_MAP_MOST_WRAPPER_SIZE];
    size_t i, k;

    memset(zeros, 0x20, sizeof zeros);
    memset(ids, 0x84, sizeof ids);
    for (i = 0; i < LENGTHS; i++) {
        size_t n = lengths[i], size;

        check("room for a list",
              ion_map_write_container(ION_MAP_TYPE_LIST, zeros, n, LIMIT, DEPTH, to, n + HEAD, record, SIZE), 0);
        check("room for an int", ion_map_write_int(zeros, n, 0, to, n + HEAD, record, SIZE), 0);
        check("room for a blob", ion_map_write_scalar(ION_MAP_TYPE_BLOB, zeros, n, value, n + HEAD, record, SIZE), 0);
        size = (size_t)ion_map_word(record, ION_MAP_AT_WRITTEN_LENGTH);
        for (k = 1; k < LENGTHS; k++) {
            size_t room = lengths[k] + size + ION_MAP_MOST_WRAPPER_SIZE;

            check("room for a wrapper",
                  ion_map_write_wrapper(ids, lengths[k], value, size, MANY, DEPTH, to, room, record, SIZE), 0);
        }
    }
    check("room for a symbol", ion_map_write_symbol(UINT64_MAX, to, ION_MAP_MOST_NUMBER_SIZE, record, SIZE), 0);
    check("less room for a symbol", ion_map_write_symbol(UINT64_MAX, to, ION_MAP_MOST_NUMBER_SIZE - 1, record, SIZE), 70);
    check("room for a float", ion_map_write_float(1, to, ION_MAP_MOST_NUMBER_SIZE, record, SIZE), 0);
    check("less room for a float", ion_map_write_float(1, to, ION_MAP_MOST_NUMBER_SIZE - 1, record, SIZE), 70);
}

/* A refusal of a wrapper that would be written: its position counts in the annotations or in the value, and only some
   numbers say in which. */
static void check_wrapper_refusals(void)
{
    static const uint8_t id[] = {0x84, 0x04}, four[] = {0x84};
    static const uint8_t int_seven[] = {0x21, 0x07}, cut[] = {0x2E, 0x04}, short_int[] = {0x22, 0x07};
    static const words in_ids = {ION_MAP_KIND_REFUSED, ION_MAP_REFUSAL_VAR_UINT_CUT, 2, 0, 0, 0, 0, 0, 0};
    static const words in_short = {ION_MAP_KIND_REFUSED, ION_MAP_REFUSAL_VALUE_CUT, 0, 0, 0, 0, 0, 0, 0};
    static const words at_0 = {ION_MAP_KIND_REFUSED, ION_MAP_REFUSAL_NO_ANNOTATIONS, 0, 0, 0, 0, 0, 0, 0};
    enum { SIZE = ION_MAP_RECORD_SIZE };
    uint8_t to[16];

    check("an ID that is cut", ion_map_write_wrapper(id, 2, int_seven, 2, LIMIT, DEPTH, to, 16, record, SIZE), 3);
    check_words("an ID that is cut", record, in_ids);
    check("a length that is cut", ion_map_write_wrapper(four, 1, cut, 2, LIMIT, DEPTH, to, 16, record, SIZE), 3);
    check_words("a length that is cut", record, in_ids);
    check("a value that is cut", ion_map_write_wrapper(four, 1, short_int, 2, LIMIT, DEPTH, to, 16, record, SIZE), 8);
    check_words("a value that is cut", record, in_short);
    check("no annotations", ion_map_write_wrapper(NULL, 0, int_seven, 2, LIMIT, DEPTH, to, 16, record, SIZE), 23);
    check_words("no annotations", record, at_0);
}

/* A map of one int, or of one value, of so many bytes: its scalar's record. */
static uint64_t read_scalar(const uint8_t *value, size_t size)
{
    return ion_map_scalar(value, size, 0, size, 0, LIMIT, record, sizeof record);
}

static void check_int64(void)
{
    static const struct {
        uint8_t bytes[12];
        size_t size;
        int fits;
        int64_t value;
    } ints[] = {
        {{0x20}, 1, 1, 0},
        {{0x21, 0x07}, 2, 1, 7},
        {{0x31, 0x07}, 2, 1, -7},
        {{0x23, 0x00, 0x01, 0x00}, 4, 1, 256},
        {{0x31, 0x01}, 2, 1, -1},
        {{0x28, 0x7F, 0xFF, 0xFF, 0xFF, 0xFF, 0xFF, 0xFF, 0xFF}, 9, 1, INT64_MAX},
        {{0x28, 0x80, 0, 0, 0, 0, 0, 0, 0}, 9, 0, 0},                       /* INT64_MAX and 1 */
        {{0x28, 0xFF, 0xFF, 0xFF, 0xFF, 0xFF, 0xFF, 0xFF, 0xFF}, 9, 0, 0},  /* UINT64_MAX */
        {{0x29, 0x01, 0, 0, 0, 0, 0, 0, 0, 0}, 10, 0, 0},                   /* and 1 */
        {{0x29, 0x00, 0x7F, 0xFF, 0xFF, 0xFF, 0xFF, 0xFF, 0xFF, 0xFF}, 10, 1, INT64_MAX},
        {{0x38, 0x7F, 0xFF, 0xFF, 0xFF, 0xFF, 0xFF, 0xFF, 0xFF}, 9, 1, -INT64_MAX},
        {{0x38, 0x80, 0, 0, 0, 0, 0, 0, 0}, 9, 1, INT64_MIN},
        {{0x38, 0x80, 0, 0, 0, 0, 0, 0, 1}, 9, 0, 0},                       /* INT64_MIN less 1 */
        {{0x38, 0xFF, 0xFF, 0xFF, 0xFF, 0xFF, 0xFF, 0xFF, 0xFF}, 9, 0, 0},
        {{0x39, 0x01, 0, 0, 0, 0, 0, 0, 0, 0}, 10, 0, 0},
        {{0x2F}, 1, 0, 0},                                                  /* a null */
        {{0x40}, 1, 0, 0},                                                  /* a float */
        {{0x71, 0x07}, 2, 0, 0}                                             /* a symbol */
    };
    static const uint8_t zero[] = {0x31, 0x00}; /* refused */
    size_t i;
    int64_t value;

    for (i = 0; i < sizeof ints / sizeof *ints; i++) {
        char what[40];

        snprintf(what, sizeof what, "int %u as int64_t", (unsigned)i);
        value = 99;
        check(what, read_scalar(ints[i].bytes, ints[i].size), 0);
        check(what, (uint64_t)ion_map_get_int64(ints[i].bytes, ints[i].size, record, &value), (uint64_t)ints[i].fits);
        check(what, (uint64_t)value, (uint64_t)(ints[i].fits ? ints[i].value : 99));
    }
    check("a record of another map", read_scalar(ints[5].bytes, ints[5].size), 0);
    check("a record of another map", (uint64_t)ion_map_get_int64(ints[5].bytes, 8, record, &value), 0);
    check("a refused int", read_scalar(zero, sizeof zero), 34);
    check("a refused int", (uint64_t)ion_map_get_int64(zero, sizeof zero, record, &value), 0);
    check("nothing said of it", (uint64_t)value, 99);
}

static void check_double(void)
{
    static const struct {
        uint8_t bytes[9];
        size_t size;
        uint64_t bits;
    } floats[] = {
        {{0x40}, 1, 0},
        {{0x44, 0x3F, 0xC0, 0, 0}, 5, 0x3FF8000000000000u},                                      /* 1.5 in four bytes */
        {{0x48, 0x3F, 0xF8, 0, 0, 0, 0, 0, 0}, 9, 0x3FF8000000000000u},
        {{0x44, 0x80, 0, 0, 0}, 5, 0x8000000000000000u},                                         /* -0 */
        {{0x48, 0x80, 0, 0, 0, 0, 0, 0, 0}, 9, 0x8000000000000000u},
        {{0x48, 0x7F, 0xF8, 0, 0, 0, 0, 0, 1}, 9, 0x7FF8000000000001u},                          /* NaNs keep their bits */
        {{0x48, 0xFF, 0xFF, 0xFF, 0xFF, 0xFF, 0xFF, 0xFF, 0xFF}, 9, 0xFFFFFFFFFFFFFFFFu},
        {{0x48, 0xFF, 0xF0, 0, 0, 0, 0, 0, 0}, 9, 0xFFF0000000000000u}                           /* minus infinity */
    };
    static const uint8_t null[] = {0x4F}, seven[] = {0x21, 0x07};
    size_t i;
    double value = 0;
    uint64_t bits;

    for (i = 0; i < sizeof floats / sizeof *floats; i++) {
        char what[40];

        snprintf(what, sizeof what, "float %u as double", (unsigned)i);
        check(what, read_scalar(floats[i].bytes, floats[i].size), 0);
        check(what, (uint64_t)ion_map_get_double(record, &value), 1);
        memcpy(&bits, &value, sizeof bits);
        check(what, bits, floats[i].bits);
    }
    value = 1.5;
    check("a null float", read_scalar(null, 1) + (uint64_t)ion_map_get_double(record, &value), 0);
    check("an int is no float", read_scalar(seven, 2) + (uint64_t)ion_map_get_double(record, &value), 0);
    check("nothing said of them", value == 1.5, 1);
}

static void check_time(const uint8_t *bytes, size_t size, const struct ion_map_time *should_be)
{
    struct ion_map_time is;

    memset(&is, 0xAA, sizeof is);
    check("time", ion_map_timestamp(bytes, size, 0, size, 0, LIMIT, record, sizeof record), 0);
    check("time taken apart", (uint64_t)ion_map_get_time(record, &is), 1);
    check("time's precision", (uint64_t)is.precision, (uint64_t)should_be->precision);
    check("time's offset is known", (uint64_t)is.offset_known, (uint64_t)should_be->offset_known);
    check("time's offset", (uint64_t)is.offset, (uint64_t)should_be->offset);
    check("time's year", (uint64_t)is.year, (uint64_t)should_be->year);
    check("time's month", (uint64_t)is.month, (uint64_t)should_be->month);
    check("time's day", (uint64_t)is.day, (uint64_t)should_be->day);
    check("time's hour", (uint64_t)is.hour, (uint64_t)should_be->hour);
    check("time's minute", (uint64_t)is.minute, (uint64_t)should_be->minute);
    check("time's second", (uint64_t)is.second, (uint64_t)should_be->second);
    check("time's coefficient", is.coefficient, should_be->coefficient);
    check("time's exponent", (uint64_t)is.exponent, (uint64_t)should_be->exponent);
}

static void check_times(void)
{
    static const uint8_t bytes[] = {0x00, 0xC0, 0x0F, 0xE8, 0x82, 0x9D, 0x96, 0x9E, 0x8F, 0xC3, 0x07}; /* 0: its length */
    /* how many bytes there are of each precision, and the time with offset unknown; an hour has its minute */
    static const struct {
        size_t size;
        struct ion_map_time time;
    } times[] = {
        {4, {ION_MAP_PRECISION_YEAR, 0, 0, 2024, 0, 0, 0, 0, 0, 0, 0}},
        {5, {ION_MAP_PRECISION_MONTH, 0, 0, 2024, 2, 0, 0, 0, 0, 0, 0}},
        {6, {ION_MAP_PRECISION_DAY, 0, 0, 2024, 2, 29, 0, 0, 0, 0, 0}},
        {8, {ION_MAP_PRECISION_MINUTE, 0, 0, 2024, 2, 29, 22, 30, 0, 0, 0}},
        {9, {ION_MAP_PRECISION_SECOND, 0, 0, 2024, 2, 29, 22, 30, 15, 0, 0}},
        {11, {ION_MAP_PRECISION_FRACTION, 0, 0, 2024, 2, 29, 22, 30, 15, 7, -3}}
    };
    static const uint8_t behind[] = {0x68, 0x43, 0xA4, 0x0F, 0xE8, 0x82, 0x9D, 0x96, 0x9E};  /* at -07:00 */
    static const uint8_t ahead[] = {0x68, 0x0B, 0x9F, 0x0F, 0xE8, 0x82, 0x9D, 0x96, 0x9E};   /* at +23:59 */
    static const uint8_t at_zero[] = {0x67, 0x80, 0x0F, 0xE8, 0x82, 0x9D, 0x96, 0x9E};       /* at +00:00 */
    static const uint8_t tens[] = {0x69, 0xC0, 0x0F, 0xE8, 0x82, 0x9D, 0x96, 0x9E, 0x80, 0x85}; /* no tens of a second */
    static const struct ion_map_time at_minus_seven = {ION_MAP_PRECISION_MINUTE, 1, -420, 2024, 2, 29, 22, 30, 0, 0, 0};
    static const struct ion_map_time at_most = {ION_MAP_PRECISION_MINUTE, 1, 1439, 2024, 2, 29, 22, 30, 0, 0, 0};
    static const struct ion_map_time at_utc = {ION_MAP_PRECISION_MINUTE, 1, 0, 2024, 2, 29, 22, 30, 0, 0, 0};
    static const struct ion_map_time no_tens = {ION_MAP_PRECISION_FRACTION, 0, 0, 2024, 2, 29, 22, 30, 0, 0, 5};
    uint8_t value[sizeof bytes];
    struct ion_map_time none;
    size_t i;

    memcpy(value, bytes, sizeof bytes);
    for (i = 0; i < sizeof times / sizeof *times; i++) {
        value[0] = (uint8_t)(0x60 + times[i].size - 1);
        check_time(value, times[i].size, &times[i].time);
    }
    check_time(behind, sizeof behind, &at_minus_seven);
    check_time(ahead, sizeof ahead, &at_most);
    check_time(at_zero, sizeof at_zero, &at_utc);
    check_time(tens, sizeof tens, &no_tens);
    none.year = 99;
    check("no time", ion_map_timestamp(map, LENGTH, 0, LENGTH, 13, LIMIT, record, sizeof record), 0);
    check("no time", (uint64_t)ion_map_get_time(record, &none), 0);
    check("nothing said of it", (uint64_t)none.year, 99);
}

static void check_names(void)
{
    static const char *const names[] = {"null", "bool", "int", "int", "float", "decimal", "timestamp", "symbol", "string",
                                        "clob", "blob", "list", "sexp", "struct", "no type", "no type"};
    static const uint8_t marker[] = {0xE0, 0x01, 0x00, 0xEA};
    size_t i;

    for (i = 0; i < sizeof names / sizeof *names; i++) {
        check(names[i], strcmp(ion_map_type_name(i), names[i]) != 0, 0);
    }
    check("no type", strcmp(ion_map_type_name(UINT64_MAX), "no type") != 0, 0);
    check("the system text", memcmp(ion_map_system_text(), ION_MAP_SYSTEM_TEXT, sizeof ION_MAP_SYSTEM_TEXT) != 0, 0);
    check("the system text, lent", ion_map_text(map, LENGTH, ion_map_system_text(), ION_MAP_SYSTEM_TEXT_SIZE, 0, LENGTH, 0, 9,
                                                LIMIT, record, sizeof record), 0);
    check("the ninth text's length", ion_map_word(record, ION_MAP_AT_LENGTH), 24);
    check("the marker's size", sizeof ION_MAP_MARKER - 1, ION_MAP_MARKER_SIZE);
    check("the marker", memcmp(ION_MAP_MARKER, marker, sizeof marker) != 0, 0);
}

#ifndef ION_MAP_NO_OLD_NAMES
/* The old names are what they were. */
static void check_old_names(void)
{
    check("an old name", ION_MAP_WORD_LENGTH, 8);
    check("an old name", ION_MAP_VALUE_FIELD_ID, 7);
    check("an old name", ION_MAP_PACKED_SIZE, 3);
    check("an old name", ION_MAP_CHECK_STRUCTS, 15);
}
#else
static void check_old_names(void)
{
}
#endif

static void check_texts(void)
{
    check("the text of 8", strcmp(ion_map_refusal_text(8), "a value that runs past the part") != 0, 0);
    check("the text of 68", strcmp(ion_map_refusal_text(68), "a limit outside its range") != 0, 0);
    check("the text of 0", strcmp(ion_map_refusal_text(0), "no refusal") != 0, 0);
    check("the text of no number", strcmp(ion_map_refusal_text(UINT64_MAX), ion_map_refusal_text(10)) != 0, 0);
}

int main(void)
{
    check_step();
    check_bounded();
    check_ids();
    check_whole_map();
    check_annotation_and_step_in();
    check_scalar();
    check_number();
    check_decimal();
    check_timestamp();
    check_many();
    check_limits();
    check_symbols();
    check_null();
    check_own_part();
    check_no_record();
    check_texts();
    check_packed();
    check_writes();
    check_room();
    check_wrapper_refusals();
    check_int64();
    check_double();
    check_times();
    check_names();
    check_old_names();
    printf("%d checks, %d differ\n", checks, differing);
    return differing != 0;
}
