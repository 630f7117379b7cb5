/* Reads maps in the Ion 1.0 binary encoding: which bytes are which marker, value or field.

   Link with libion_map.a, which is for x86-64 Linux. The library keeps nothing between calls and takes no memory
   from the heap, so calls may run at the same time as long as no two write to one buffer.

   A map is any bytes, good or bad. Positions are counted from the map's first byte, 0. A span a..b holds a
   and not b, so its length is b - a and the next thing begins at b.

   Every function takes any numbers and any bytes. It answers with a record or with a numbered refusal; it
   never reads outside the map and never writes outside the record. What it can't test are the pointers:
   `map` must point to map_len bytes and `out` to out_len bytes, and what is written overlaps nothing else. A
   pointer whose length is 0 is not followed and may be null, as that of an empty std::vector is.

   A refusal is a record too. Only where 51 is returned, because `out` is too short for a record, is nothing written:
   after 51 no record is there to be read, and `out` holds what it held before.

   ion_map_kit.h has small helpers over this header: an int as int64_t, a float as double, a timestamp's fields.

   The header is for C99 and C++, on machines whose size_t has 64 bits. */

#ifndef ION_MAP_H
#define ION_MAP_H

#include <stddef.h>
#include <stdint.h>

/* The version, as text and as a number that grows with it: 10000 times the first number, 100 times the second, and the
   third. CHANGELOG.md says what a caller must change from one to the next. */
#define ION_MAP_VERSION "0.4.0"
#define ION_MAP_VERSION_NUMBER 400

/* Where the next line is an error, size_t has not 64 bits, and positions would be cut: the library is not for this target. */
typedef char ion_map_needs_a_size_t_of_64_bits[sizeof(size_t) == 8 ? 1 : -1];

/* ======================================= Part 1: the step ======================================= */

/* A record is nine words of 64 bits, each with its least significant byte first on every machine.
   ion_map_word reads one: the constants ION_MAP_AT_... say which word is what, and of all others those that end in
   _SIZE or _WORDS are counts of bytes or words. A buffer may be longer; its further bytes are left as they are. */
enum {
    ION_MAP_WORD_SIZE = 8,
    ION_MAP_RECORD_WORDS = 9,
    ION_MAP_RECORD_SIZE = ION_MAP_RECORD_WORDS * ION_MAP_WORD_SIZE
};

/* What a part of a map is: the argument `kind` of the step. */
enum {
    ION_MAP_PART_STREAM = 0,   /* the whole map, or a part taken as one */
    ION_MAP_PART_SEQUENCE = 1, /* the body of a list or a sexp */
    ION_MAP_PART_STRUCT = 2    /* the body of a struct: every item has a field ID */
};

/* Limits that a title sets, the same for all calls on its maps: how many bytes a value's annotations may have, the
   argument `annotations`, and at which depth a container is too deep for a walk, the argument `depth`. The stream
   is depth 0. Of each the usual one, and the least and the most that may be given. */
enum {
    ION_MAP_DEFAULT_ANNOTATIONS = 255,
    ION_MAP_LEAST_ANNOTATIONS = 255,
    ION_MAP_MOST_ANNOTATIONS = 65535,
    ION_MAP_DEFAULT_DEPTH = 32,
    ION_MAP_LEAST_DEPTH = 1,
    ION_MAP_MOST_DEPTH = 64
};

/* Word 0 of every record is which kind of record it is. Word 8 is a length: of a value's or a field's body, of a
   body that was stepped into, of a scalar's part; in records of other kinds it is 0. */
enum {
    ION_MAP_AT_KIND = 0,
    ION_MAP_AT_LENGTH = 8
};

enum {
    ION_MAP_KIND_END = 0,     /* nothing is left in the part */
    ION_MAP_KIND_MARKER = 1,  /* the version marker of Ion 1.0; only in a stream */
    ION_MAP_KIND_VALUE = 2,   /* a value of a stream or a sequence */
    ION_MAP_KIND_FIELD = 3,   /* a value of a struct, with its field ID */
    ION_MAP_KIND_REFUSED = 9  /* no answer; the record says why and where */
};

/* Words 1 to 7 of a value or a field. Its bytes lie in this order:
   field ID (in a struct), wrapper and annotations (if any), descriptor, length (if any), body. */
enum {
    ION_MAP_AT_VALUE_BYTE = 1,        /* its own descriptor byte, never the wrapper's: type and whether it is null */
    ION_MAP_AT_VALUE_START = 2,       /* its first byte: of the field ID, else of the wrapper, else the descriptor */
    ION_MAP_AT_VALUE_ANNOTATIONS = 3, /* the annotations' first byte; they end at the descriptor, and where there
                                         are none this word and the next are equal */
    ION_MAP_AT_VALUE_DESCRIPTOR = 4,  /* the descriptor's position */
    ION_MAP_AT_VALUE_BODY = 5,        /* the body's first byte */
    ION_MAP_AT_VALUE_END = 6,         /* where body and value end: the position for the next step */
    ION_MAP_AT_VALUE_FIELD_ID = 7     /* the field ID, a symbol's ID; 0 for a value */
};

/* The four bytes of the marker of Ion 1.0, for a map that is written: the text's final zero is none of them. */
#define ION_MAP_MARKER "\xE0\x01\x00\xEA"

enum {
    ION_MAP_MARKER_SIZE = 4
};

/* Words 1 to 7 of a marker. */
enum {
    ION_MAP_AT_MARKER_BYTE = 1,  /* 224, which is E0 */
    ION_MAP_AT_MARKER_START = 2, /* its first byte */
    ION_MAP_AT_MARKER_MAJOR = 3, /* the version's two numbers, 1 and 0: a marker with others is refused */
    ION_MAP_AT_MARKER_MINOR = 4,
    ION_MAP_AT_MARKER_BODY = 5,  /* the same as its end: a marker has no body */
    ION_MAP_AT_MARKER_END = 6    /* where it ends: the position for the next step */
};

/* Words 1 to 7 of an end: the position in word 2 is the part's end, the others are 0. */
enum {
    ION_MAP_AT_END_POSITION = 2
};

/* Words 1 to 7 of a refusal: its number, its position in the map, and zeros. */
enum {
    ION_MAP_AT_REFUSED_NUMBER = 1,
    ION_MAP_AT_REFUSED_POSITION = 2
};

/* Types: the high four bits of a value's descriptor byte, which ion_map_type gives. */
enum {
    ION_MAP_TYPE_NULL = 0,
    ION_MAP_TYPE_BOOL = 1,
    ION_MAP_TYPE_INT = 2,          /* zero and above */
    ION_MAP_TYPE_NEGATIVE_INT = 3, /* below zero; the same type in Ion */
    ION_MAP_TYPE_FLOAT = 4,
    ION_MAP_TYPE_DECIMAL = 5,
    ION_MAP_TYPE_TIMESTAMP = 6,
    ION_MAP_TYPE_SYMBOL = 7,
    ION_MAP_TYPE_STRING = 8,
    ION_MAP_TYPE_CLOB = 9,
    ION_MAP_TYPE_BLOB = 10,
    ION_MAP_TYPE_LIST = 11,
    ION_MAP_TYPE_SEXP = 12,
    ION_MAP_TYPE_STRUCT = 13
};

/* Refusals: the number that a function returns, and word 1 of its record. After the dash stands what the
   position is. */
enum {
    /* The bytes were cut short: more of them may help, unless a length inside the map is wrong. */
    ION_MAP_REFUSAL_NO_VALUE_LEFT = 1,         /* nothing after annotations - there */
    ION_MAP_REFUSAL_MARKER_CUT = 2,            /* a marker under 4 bytes - its start */
    ION_MAP_REFUSAL_VAR_UINT_CUT = 3,          /* a VarUInt, such as a length or an ID, without a last byte - the end of the part */
    ION_MAP_REFUSAL_ANNOTATIONS_CUT = 5,       /* annotations within the limit that run past the part - after their length */
    ION_MAP_REFUSAL_PAD_CUT = 6,               /* a pad that runs past the part - after its length */
    ION_MAP_REFUSAL_FIELD_CUT = 7,             /* a field ID with nothing after it - there */
    ION_MAP_REFUSAL_VALUE_CUT = 8,             /* a value that runs past the part - its descriptor */

    /* The bytes were written wrong. */
    ION_MAP_REFUSAL_NUMBER_TOO_LONG = 20,      /* a VarUInt or VarInt of over 9 bytes - its first byte */
    ION_MAP_REFUSAL_BAD_MARKER = 21,           /* a marker that doesn't end in EA - its start */
    ION_MAP_REFUSAL_NOT_A_VALUE = 22,          /* a byte that begins no value, or E0 outside a stream - that byte */
    ION_MAP_REFUSAL_NO_ANNOTATIONS = 23,       /* an annotations' length of 0 - the wrapper */
    ION_MAP_REFUSAL_ANNOTATIONS_TOO_LONG = 24, /* annotations longer than their wrapper - the wrapper */
    ION_MAP_REFUSAL_NO_ROOM_FOR_VALUE = 25,    /* a wrapper with no room for a value - the wrapper */
    ION_MAP_REFUSAL_TOO_MANY_ANNOTATIONS = 26, /* annotations over the limit, also if they run past the part - the wrapper */
    ION_MAP_REFUSAL_WRAPPER_IN_WRAPPER = 27,   /* a wrapper in a wrapper - the inner one */
    ION_MAP_REFUSAL_PAD_IN_WRAPPER = 28,       /* a pad in a wrapper - the pad */
    ION_MAP_REFUSAL_WRAPPED_LENGTH_DIFFERS = 29, /* a value that doesn't end where its wrapper does - the wrapper */
    ION_MAP_REFUSAL_BAD_FLOAT_LENGTH = 30,     /* a float's length code other than 0, 4, 8, 15 - its descriptor */
    ION_MAP_REFUSAL_TIMESTAMP_TOO_SHORT = 31,  /* a timestamp under 2 bytes, not null - its descriptor */
    ION_MAP_REFUSAL_EMPTY_ORDERED_STRUCT = 32, /* an ordered struct without a body - its descriptor */
    ION_MAP_REFUSAL_TOO_DEEP = 37,             /* a walk's: a container at the limit of depth - its descriptor */
    ION_MAP_REFUSAL_NOT_VERSION_1_0 = 60,      /* a marker that ends in EA and whose two numbers aren't 1 and 0 - its start */

    /* The caller's own. */
    ION_MAP_REFUSAL_OUTSIDE = 50,              /* not start <= position <= end <= map_len, or a kind or form above 2 - 0 */
    ION_MAP_REFUSAL_RECORD_TOO_SHORT = 51,     /* out_len under ION_MAP_RECORD_SIZE (a check's: ION_MAP_CHECK_SIZE); nothing is written - 0 */
    ION_MAP_REFUSAL_INPUT_TOO_LONG = 54,       /* of the program mapspans: more bytes than it takes - the most that it takes */
    ION_MAP_REFUSAL_LIMIT_OUT_OF_RANGE = 68    /* a limit that isn't from its least to its most, after 51, before 50 - 0 */
};

/* Word i of a record, i being under ION_MAP_RECORD_WORDS. One expression, of which compilers make one load. */
static inline uint64_t ion_map_word(const uint8_t *record, size_t i)
{
    const uint8_t *word = record + ION_MAP_WORD_SIZE * i;

    return (uint64_t)word[0] | (uint64_t)word[1] << 8 | (uint64_t)word[2] << 16 | (uint64_t)word[3] << 24
           | (uint64_t)word[4] << 32 | (uint64_t)word[5] << 40 | (uint64_t)word[6] << 48 | (uint64_t)word[7] << 56;
}

/* The type that a value's descriptor byte says. */
static inline unsigned ion_map_type(uint64_t byte)
{
    return (unsigned)(byte >> 4 & 15);
}

/* Whether a value is a null, of whichever type. */
static inline int ion_map_is_null(uint64_t byte)
{
    return (byte & 15) == 15;
}

/* Whether a value can be stepped into: a list, a sexp or a struct that isn't null. Its body, which may be
   empty, is then a part for further steps. */
static inline int ion_map_is_container(uint64_t byte)
{
    unsigned type = ion_map_type(byte);

    return ION_MAP_TYPE_LIST <= type && type <= ION_MAP_TYPE_STRUCT && !ion_map_is_null(byte);
}

/* What the body of a container is, for the argument `kind`. */
static inline uint64_t ion_map_body_kind(uint64_t byte)
{
    return ion_map_type(byte) == ION_MAP_TYPE_STRUCT ? ION_MAP_PART_STRUCT : ION_MAP_PART_SEQUENCE;
}

/* What the number of a refusal says, in a few words without a capital or a full stop. Never null. */
static inline const char *ion_map_refusal_text(uint64_t number)
{
    switch (number) {
    case 0: return "no refusal";
    /* include/texts: the words of the one list, crates/numbers/src/refusal.rt */
    case 1: return "nothing after annotations, or where an entry on a value is to begin";
    case 2: return "a marker under 4 bytes";
    case 3: return "a VarUInt without a last byte";
    case 4: return "a VarInt without a last byte";
    case 5: return "annotations that run past the part";
    case 6: return "a pad that runs past the part";
    case 7: return "a field ID with nothing after it";
    case 8: return "a value that runs past the part";
    case 9: return "an Int that runs past the part";
    case 20: return "a number that ended past 9 bytes";
    case 21: return "a marker without EA";
    case 22: return "no value where one is to stand";
    case 23: return "an annotations' length of 0";
    case 24: return "annotations longer than their wrapper";
    case 25: return "a wrapper with no room for a value";
    case 26: return "annotations of more bytes than the limit";
    case 27: return "a wrapper in a wrapper";
    case 28: return "a pad in a wrapper";
    case 29: return "a value whose length differs from what its wrapper says";
    case 30: return "a float code outside 0, 4, 8, 15";
    case 31: return "a non-null timestamp under 2 bytes";
    case 32: return "an empty ordered struct";
    case 33: return "a bool code 2 to 14";
    case 34: return "a negative int of zero";
    case 35: return "a symbol over 8 bytes";
    case 36: return "text that is not UTF-8";
    case 37: return "a container deeper than the walk goes";
    case 60: return "a marker that isn't 1.0";
    case 61: return "a timestamp's hour with no minute";
    case 62: return "a timestamp's field, offset or fraction out of range";
    case 63: return "a timestamp's coefficient whose magnitude has over 8 bytes";
    case 64: return "a symbol table with imports";
    case 65: return "a symbol table with a second list of symbols";
    case 50: return "parts or positions outside the slice or out of order, a part kind above 2, or a walk state deeper than the walk's limit";
    case 51: return "a record buffer that is too short";
    case 52: return "stepping into what is not a container or is null";
    case 54: return "more input than mapspans takes";
    case 66: return "a lent system text that isn't the nine joined";
    case 67: return "a largest number of pads of 0";
    case 68: return "a limit outside its range";
    case 69: return "a lent buffer that is shorter than the packed map";
    case 70: return "a lent buffer that is shorter than what is to be written";
    case 71: return "a pad of size 0, or a length that 9 VarUInt bytes cannot tell";
    /* end of include/texts */
    default: return "a number that this header doesn't know";
    }
}

#ifdef __cplusplus
extern "C" {
#endif

/* One step through a part of a map: passes the pads at `position` and hands out the marker, value or field
   after them, or says that the part has ended.

     map, map_len  the whole map, also where the part is smaller
     start, end    the part: 0 and map_len for the stream, words BODY and END of a container for its body
     position      where to go on: `start` at first, then word END of the record before
     kind          what the part is, ION_MAP_PART_...
     annotations   the most bytes of a value's annotations, ION_MAP_DEFAULT_ANNOTATIONS where the title sets no other
     out, out_len  the record, at least ION_MAP_RECORD_SIZE bytes

   Returns 0, or the number of the refusal that the record holds; with 51 there is none. Record kinds
   are END, MARKER, VALUE, FIELD and REFUSED.

   The same call gives the same answer: stepping on after an end says end, and a refused step stays refused.
   A stream needs no marker, and a marker that isn't Ion 1.0's is refused: nothing behind it is read.
   A container is handed out whole, and what is in it is read only by steps through its body. Of a value's
   body and of annotations nothing is read here, so a value that is handed out may still be a bad one. */
uint64_t ion_map_step(const uint8_t *map, size_t map_len, size_t start, size_t end, size_t position,
                      uint64_t kind, size_t annotations, uint8_t *out, size_t out_len);

#ifdef __cplusplus
}
#endif

/* ===== Part 2: bounded steps, annotations, stepping in, scalars, timestamps, numbers, decimals, many steps ===== */

/* Kinds of the records of part 2, beside ION_MAP_KIND_END and ION_MAP_KIND_REFUSED. */
enum {
    ION_MAP_KIND_MORE = 4,
    ION_MAP_KIND_ANNOTATION = 5,
    ION_MAP_KIND_BODY = 6,
    ION_MAP_KIND_SCALAR = 7,
    ION_MAP_KIND_NUMBER = 8,
    ION_MAP_KIND_DECIMAL = 10,
    ION_MAP_KIND_TIMESTAMP = 11,
    ION_MAP_KIND_CHECKED = 12
};

/* The record of a check has sixteen words: kind, and then how many there are of each; a refusal's is kind, number,
   position and zeros. */
enum {
    ION_MAP_CHECK_WORDS = 16,
    ION_MAP_CHECK_SIZE = ION_MAP_CHECK_WORDS * ION_MAP_WORD_SIZE
};
enum {
    ION_MAP_AT_CHECK_MARKERS = 1,
    ION_MAP_AT_CHECK_PADS = 2, /* one each at every depth, also where nothing follows them */
    ION_MAP_AT_CHECK_NULLS = 3, /* null.null; the null of another type counts as that type */
    ION_MAP_AT_CHECK_BOOLS = 4,
    ION_MAP_AT_CHECK_INTS = 5, /* of both signs */
    ION_MAP_AT_CHECK_FLOATS = 6,
    ION_MAP_AT_CHECK_DECIMALS = 7,
    ION_MAP_AT_CHECK_TIMESTAMPS = 8,
    ION_MAP_AT_CHECK_SYMBOLS = 9,
    ION_MAP_AT_CHECK_STRINGS = 10,
    ION_MAP_AT_CHECK_CLOBS = 11,
    ION_MAP_AT_CHECK_BLOBS = 12,
    ION_MAP_AT_CHECK_LISTS = 13,
    ION_MAP_AT_CHECK_SEXPS = 14,
    ION_MAP_AT_CHECK_STRUCTS = 15
};

/* Words of a bounded step that came back among pads; the others are 0. */
enum {
    ION_MAP_AT_MORE_PADS = 1,    /* how many pads were passed: as many as were allowed */
    ION_MAP_AT_MORE_POSITION = 2 /* after the last of them, in a struct before the next field ID: the position for the
                                    next step */
};

/* Words of an annotation; words 1, 4, 5 and 7 are 0. */
enum {
    ION_MAP_AT_ANNOTATION_START = 2, /* the first byte of the ID */
    ION_MAP_AT_ANNOTATION_ID = 3,    /* the ID, a symbol's */
    ION_MAP_AT_ANNOTATION_END = 6    /* where its bytes end: the position for the next call */
};

/* Words of a body that was stepped into; words 3, 4 and 7 are 0. */
enum {
    ION_MAP_AT_BODY_PART = 1,       /* ION_MAP_PART_SEQUENCE or ION_MAP_PART_STRUCT */
    ION_MAP_AT_BODY_DESCRIPTOR = 2, /* the container's descriptor's position */
    ION_MAP_AT_BODY_START = 5,      /* the body */
    ION_MAP_AT_BODY_END = 6
};

/* Words of a scalar; word 7 is 0. */
enum {
    ION_MAP_AT_SCALAR_BYTE = 1,       /* its descriptor byte, which has a null's type */
    ION_MAP_AT_SCALAR_DESCRIPTOR = 2, /* the descriptor's position */
    ION_MAP_AT_SCALAR_WHAT = 3,       /* what it is, ION_MAP_WHAT_... */
    ION_MAP_AT_SCALAR_NUMBER = 4,     /* of a bool, int, float or symbol, as said below; else 0 */
    ION_MAP_AT_SCALAR_START = 5,      /* its part of the map; start and end are equal where it has none */
    ION_MAP_AT_SCALAR_END = 6
};

/* Word 3 of a scalar. */
enum {
    ION_MAP_WHAT_NULL = 0,
    ION_MAP_WHAT_BOOL = 1,      /* number: 0 or 1 */
    ION_MAP_WHAT_INT = 2,       /* number: 1 where negative; part: the magnitude, most significant byte first,
                                   without leading zero bytes, so that zero has none */
    ION_MAP_WHAT_FLOAT = 3,     /* number: the 64 bits of a double, also where the map has 32 or none */
    ION_MAP_WHAT_DECIMAL = 4,   /* part: its body, which ion_map_decimal splits */
    ION_MAP_WHAT_TIMESTAMP = 5, /* part: its body, which ion_map_timestamp reads */
    ION_MAP_WHAT_SYMBOL = 6,    /* number: its ID */
    ION_MAP_WHAT_STRING = 7,    /* part: its text, which is UTF-8 and has no final zero */
    ION_MAP_WHAT_CLOB = 8,      /* part: its bytes */
    ION_MAP_WHAT_BLOB = 9,      /* part: its bytes */
    ION_MAP_WHAT_CONTAINER = 10 /* a list, sexp or struct that isn't null: step in */
};

/* Forms of a number: the argument `form` of ion_map_number. */
enum {
    ION_MAP_FORM_VAR_UINT = 0,
    ION_MAP_FORM_VAR_INT = 1,
    ION_MAP_FORM_INT = 2
};

/* Words of a number; words 4 and 7 are 0. */
enum {
    ION_MAP_AT_NUMBER_NEGATIVE = 1, /* 1 where the sign is negative, also of a negative zero */
    ION_MAP_AT_NUMBER_POSITION = 2, /* its first byte */
    ION_MAP_AT_NUMBER_VALUE = 3,    /* a VarUInt's value, a VarInt's magnitude, the low seven bits of an Int's
                                       first byte */
    ION_MAP_AT_NUMBER_REST = 5,     /* the first of an Int's further bytes, which belong to its magnitude and go
                                       to its end; of the other forms the end */
    ION_MAP_AT_NUMBER_END = 6       /* where it ends */
};

/* Words of a decimal: its coefficient times ten to its exponent. */
enum {
    ION_MAP_AT_DECIMAL_NEGATIVE = 1,          /* 1 where the coefficient's sign is negative, also of a negative zero */
    ION_MAP_AT_DECIMAL_START = 2,             /* the body's first byte */
    ION_MAP_AT_DECIMAL_FIRST = 3,             /* the low seven bits of the coefficient's first byte */
    ION_MAP_AT_DECIMAL_EXPONENT_NEGATIVE = 4, /* 1 where the exponent is negative; an exponent of negative zero isn't */
    ION_MAP_AT_DECIMAL_REST = 5,              /* the coefficient's further bytes, which belong to its magnitude; where the
                                                 coefficient has no bytes they stand at the body's end */
    ION_MAP_AT_DECIMAL_END = 6,
    ION_MAP_AT_DECIMAL_EXPONENT = 7           /* the exponent's magnitude, below 2^62 */
};

/* Words of a timestamp; word 8 is 0. */
enum {
    ION_MAP_AT_TIMESTAMP_PRECISION = 1,  /* how far it goes, ION_MAP_PRECISION_... */
    ION_MAP_AT_TIMESTAMP_DESCRIPTOR = 2, /* the descriptor's position */
    ION_MAP_AT_TIMESTAMP_OFFSET = 3,     /* by how many minutes local time is ahead of UTC, and 1440; 0 where that is
                                            unknown */
    ION_MAP_AT_TIMESTAMP_FIELDS = 4,     /* in UTC: the year in the low 16 bits, then month, day, hour, minute and second
                                            in 8 bits each; those that it doesn't have are 0 */
    ION_MAP_AT_TIMESTAMP_EXPONENT = 5,   /* the fraction of the second is the coefficient times ten to the exponent, and
                                            below 1: the exponent's magnitude, below 2^62 */
    ION_MAP_AT_TIMESTAMP_EXPONENT_NEGATIVE = 6, /* 1 where it is negative; an exponent of negative zero isn't */
    ION_MAP_AT_TIMESTAMP_COEFFICIENT = 7
};

/* Word 1 of a timestamp. An hour stands with its minute. */
enum {
    ION_MAP_PRECISION_YEAR = 1,
    ION_MAP_PRECISION_MONTH = 2,
    ION_MAP_PRECISION_DAY = 3,
    ION_MAP_PRECISION_MINUTE = 4,
    ION_MAP_PRECISION_SECOND = 5,
    ION_MAP_PRECISION_FRACTION = 6
};

/* Refusals that only the functions of part 2 give, beside those of part 1. */
enum {
    ION_MAP_REFUSAL_VAR_INT_CUT = 4,        /* a VarInt without a last byte - the end of the part */
    ION_MAP_REFUSAL_INT_CUT = 9,            /* an Int that runs past the part - its start */
    ION_MAP_REFUSAL_BAD_BOOL = 33,          /* a bool's code 2 to 14 - its descriptor */
    ION_MAP_REFUSAL_NEGATIVE_ZERO_INT = 34, /* a negative int of zero - its descriptor */
    ION_MAP_REFUSAL_SYMBOL_TOO_LONG = 35,   /* a symbol of over 8 bytes - its descriptor */
    ION_MAP_REFUSAL_BAD_UTF8 = 36,          /* a string that isn't UTF-8 - its descriptor */
    ION_MAP_REFUSAL_NOT_A_CONTAINER = 52,   /* stepping into a scalar or a null - its descriptor */
    ION_MAP_REFUSAL_HOUR_WITHOUT_MINUTE = 61, /* a timestamp that ends after its hour - its descriptor */
    ION_MAP_REFUSAL_TIMESTAMP_OUT_OF_RANGE = 62, /* a timestamp's year outside 1 to 9999, another field, the offset or
                                                    the fraction outside its range - its descriptor */
    ION_MAP_REFUSAL_COEFFICIENT_TOO_LONG = 63, /* a fraction's coefficient of 2^64 or more - its descriptor */
    ION_MAP_REFUSAL_NO_PADS_ALLOWED = 67    /* a bounded step's largest number of pads is 0, after 50 - 0 */
};

#ifdef __cplusplus
extern "C" {
#endif

/* All functions of part 2 that take `out` return 0 or the number of the refusal that the record holds; with
   51 nothing is written, and no record is there to be read. */

/* One step past `most` pads at most, so that it comes back soon also where a map holds nothing but pads. The other
   arguments are those of ion_map_step. It answers what ion_map_step does, or, where `most` pads were passed and another
   pad's descriptor comes next, MORE: go on from word POSITION. Of that next pad nothing is read yet but its descriptor,
   in a struct its field ID before that. Repeated, it reaches the item, end or refusal of ion_map_step. Only a number
   without a last byte, such as zeros for a field ID, is read up to the part's end, however long that is, before it is
   refused. Record kinds: those of ion_map_step, and MORE. */
uint64_t ion_map_step_bounded(const uint8_t *map, size_t map_len, size_t start, size_t end, size_t position,
                              uint64_t kind, size_t most, size_t annotations, uint8_t *out, size_t out_len);

/* The next annotation of a value. The part is words ANNOTATIONS and DESCRIPTOR of the value's record; go on
   from `start` at first, then from word END of the record before. Record kinds: ANNOTATION, END, REFUSED. */
uint64_t ion_map_annotation(const uint8_t *map, size_t map_len, size_t start, size_t end, size_t position,
                            uint8_t *out, size_t out_len);

/* The body of the container at `position`, which is its descriptor's (word DESCRIPTOR of its record) or its
   wrapper's. The part start..end is the one that handed it out; of a value that was handed out words DESCRIPTOR and END
   serve as well, with DESCRIPTOR for the position, and the answer is the same. The value is looked at afresh, with the
   refusals of the step, 1 also where `position` is the part's end and 22 also at a pad and at E0. Record kinds: BODY,
   REFUSED. */
uint64_t ion_map_step_in(const uint8_t *map, size_t map_len, size_t start, size_t end, size_t position,
                         size_t annotations, uint8_t *out, size_t out_len);

/* Reads the scalar at `position`; the arguments are those of ion_map_step_in, DESCRIPTOR..END for the part too. Record
   kinds: SCALAR, REFUSED. */
uint64_t ion_map_scalar(const uint8_t *map, size_t map_len, size_t start, size_t end, size_t position,
                        size_t annotations, uint8_t *out, size_t out_len);

/* Reads the timestamp at `position`; the arguments are those of ion_map_step_in. Of a null and of a value of another
   type the record is the one of ion_map_scalar. Record kinds: TIMESTAMP, SCALAR, REFUSED (3 and 4 at the body's end,
   20 at a number's first byte, 61 to 63 at the descriptor). */
uint64_t ion_map_timestamp(const uint8_t *map, size_t map_len, size_t start, size_t end, size_t position,
                           size_t annotations, uint8_t *out, size_t out_len);

/* As many steps as there is room for: the records of ion_map_step one after the other, ION_MAP_RECORD_SIZE bytes
   each, the last being an end or a refusal where one is met. *count is how many there are, 0 with 51. Where the
   last one is neither, go on from its word END. Returns 0, or the number of the refusal in the last record. */
uint64_t ion_map_steps(const uint8_t *map, size_t map_len, size_t start, size_t end, size_t position,
                       uint64_t kind, size_t annotations, uint8_t *out, size_t out_len, uint64_t *count);

/* How many markers and values a walk of the whole map meets, those in containers included, up to its end or
   its first refusal and at most `most`. A container at depth `depth` is counted and not entered: the walk ends
   there. Fewer than `most` doesn't say which of these it was. With a limit out of range it is 0. */
uint64_t ion_map_walked(const uint8_t *map, size_t map_len, uint64_t most, size_t annotations, size_t depth);

/* Checks the whole map and counts what it holds, at every depth: every value's span, then each of its annotation IDs,
   then its scalar, a decimal's and a timestamp's body included, or what is in it. A container at depth `depth` is
   refused with 37, empty or not. Where it is accepted, no step, stepping in, annotation step or scalar reading of what is in
   the map is refused. The record is at least ION_MAP_CHECK_SIZE bytes (51 below). Record kinds: CHECKED, REFUSED: the
   first refusal that a walk meets which reads each item before the next. */
uint64_t ion_map_check(const uint8_t *map, size_t map_len, size_t annotations, size_t depth, uint8_t *out,
                       size_t out_len);

/* How many field IDs the step at `position` in a struct's body start..end began to read: one for each pad that it
   passes, and one more unless it ends there, also where that ID or what follows it is refused. 0 where the part or
   the position is outside (50) or `annotations` out of range (68). */
uint64_t ion_map_ids(const uint8_t *map, size_t map_len, size_t start, size_t end, size_t position,
                     size_t annotations);

/* Reads the number at `position` of the part start..end. `form` is ION_MAP_FORM_..., and 50 is returned for
   any other; an Int has `length` bytes, and the other forms take no notice of `length`. Record kinds: NUMBER,
   REFUSED. */
uint64_t ion_map_number(const uint8_t *map, size_t map_len, size_t start, size_t end, size_t position,
                        uint64_t form, size_t length, uint8_t *out, size_t out_len);

/* Splits a decimal into exponent and coefficient. The part start..end is its body, words START and END of its
   scalar's record; an empty one is zero with exponent 0. Record kinds: DECIMAL, REFUSED (4 at `end`, 20 at `start`, 50). */
uint64_t ion_map_decimal(const uint8_t *map, size_t map_len, size_t start, size_t end, uint8_t *out,
                         size_t out_len);

#ifdef __cplusplus
}
#endif

/* ======================================= End of part 2 ======================================= */

/* ======================================= Part 3: texts of symbols ======================================= */

/* The texts of the IDs 1 to 9, joined: the argument `system`, 84 bytes. A symbol table of the map gives the texts of
   IDs from 10 up. ion_map_system_text of ion_map_kit.h has them as bytes, without a cast. */
#define ION_MAP_SYSTEM_TEXT \
    "$ion" "$ion_1_0" "$ion_symbol_table" "name" "version" "imports" "symbols" "max_id" "$ion_shared_symbol_table"

enum {
    ION_MAP_SYSTEM_TEXT_SIZE = 84,
    ION_MAP_FIRST_OWN_ID = 10
};

/* Kinds of the records of part 3, beside ION_MAP_KIND_REFUSED. Word 8 is the text's or the list's length. */
enum {
    ION_MAP_KIND_TEXT = 13,
    ION_MAP_KIND_SYMBOLS = 19
};

/* Words of a text; words 2, 3 and 4 are 0. */
enum {
    ION_MAP_AT_TEXT_WHERE = 1, /* where it lies, ION_MAP_TEXT_... */
    ION_MAP_AT_TEXT_START = 5, /* the text there, UTF-8 without a final zero; both are 0 where it is unknown */
    ION_MAP_AT_TEXT_END = 6,
    ION_MAP_AT_TEXT_ID = 7     /* the ID that was asked for */
};

/* Word 1 of a text. */
enum {
    ION_MAP_TEXT_UNKNOWN = 0, /* nowhere: ID 0, an ID past the table, or an entry that is no string or null */
    ION_MAP_TEXT_OF_MAP = 1,
    ION_MAP_TEXT_OF_SYSTEM = 2
};

/* Words of the list of symbols that rules; words 2, 3, 4 and 7 are 0. */
enum {
    ION_MAP_AT_SYMBOLS_LISTED = 1, /* 1 where a list rules, else 0 */
    ION_MAP_AT_SYMBOLS_START = 5,  /* its body; both are 0 where none rules */
    ION_MAP_AT_SYMBOLS_END = 6
};

/* Refusals that only the functions of part 3 give, beside those of parts 1 and 2. */
enum {
    ION_MAP_REFUSAL_HAS_IMPORTS = 64,         /* a symbol table with a field 6 - its field ID */
    ION_MAP_REFUSAL_SECOND_SYMBOLS = 65,      /* a symbol table with a second field 7 - its field ID */
    ION_MAP_REFUSAL_NOT_THE_SYSTEM_TEXT = 66  /* another `system` than the nine texts, after 51 and before 68 - 0 */
};

#ifdef __cplusplus
extern "C" {
#endif

/* The text of a symbol's ID at a place of the stream start..end. The place is where one of the stream's items begins
   (word START of its record) or the stream's end; any other is refused with 50. Of the tables and markers before it
   the last one rules. The text is a part of the map or of `system`. Steps that are refused on the way refuse the
   lookup. Record kinds: TEXT, REFUSED. */
uint64_t ion_map_text(const uint8_t *map, size_t map_len, const uint8_t *system, size_t system_len, size_t start,
                      size_t end, size_t place, size_t id, size_t annotations, uint8_t *out, size_t out_len);

/* The same in two stages, for many IDs at one place: the list of the table that rules there is found once (record
   kinds: SYMBOLS, REFUSED), and each ID is then looked up with the list's body, words START and END of that record,
   as start..end (record kinds: TEXT, REFUSED). Where ion_map_symbols refuses so does ion_map_text; otherwise the
   record of the second is that of ion_map_text. */
uint64_t ion_map_symbols(const uint8_t *map, size_t map_len, const uint8_t *system, size_t system_len, size_t start,
                         size_t end, size_t place, size_t annotations, uint8_t *out, size_t out_len);
uint64_t ion_map_symbol_text(const uint8_t *map, size_t map_len, const uint8_t *system, size_t system_len, size_t start,
                             size_t end, size_t id, size_t annotations, uint8_t *out, size_t out_len);

#ifdef __cplusplus
}
#endif

/* ======================================= End of part 3 ======================================= */

/* ======================================= Part 4: packed maps ======================================= */

/* A packed map is the map without its pads, a struct's pads with their field IDs, and with every length, those of
   wrappers included, in its shortest form. Markers, field IDs, annotations, the bodies of scalars and the descriptors of
   nulls and bools stay byte for byte. An ordered struct stays ordered, with a VarUInt length; one that has nothing left
   in it becomes D0. */

/* Kinds of the records of part 4, beside ION_MAP_KIND_REFUSED; words 1, 2 and 4 to 8 are 0. */
enum {
    ION_MAP_KIND_PACKED_SIZE = 15,
    ION_MAP_KIND_PACKED = 16
};

enum {
    ION_MAP_AT_PACKED_SIZE = 3 /* how many bytes the packed map has */
};

/* Refusals that only the functions of part 4 give, beside those of parts 1 and 2. */
enum {
    ION_MAP_REFUSAL_NO_ROOM_TO_PACK = 69 /* packed_len under the packed map's size - that size */
};

#ifdef __cplusplus
extern "C" {
#endif

/* How many bytes the packed map has; nothing is written but the record. A map that ion_map_check doesn't accept is
   refused as there. Record kinds: PACKED_SIZE, REFUSED. */
uint64_t ion_map_packed_size(const uint8_t *map, size_t map_len, size_t annotations, size_t depth, uint8_t *out,
                             size_t out_len);

/* Writes the packed map to `packed`, a buffer of packed_len bytes that overlaps neither the map nor the record. A packed
   map is never longer than the map, so a buffer of map_len bytes always suffices. Its bytes behind the packed map, and
   all of them where the call is refused, stay as they were. ion_map_check accepts the packed map, with the same counts
   but no pads; packing it again changes nothing. Refused are, in this order: 51, 68, a map that ion_map_check doesn't
   accept, and with 69 a buffer that is too short. Record kinds: PACKED, REFUSED. */
uint64_t ion_map_pack(const uint8_t *map, size_t map_len, size_t annotations, size_t depth, uint8_t *packed,
                      size_t packed_len, uint8_t *out, size_t out_len);

#ifdef __cplusplus
}
#endif

/* ======================================= Part 5: writing values ======================================= */

/* Each function writes one thing at the start of the buffer `to` and answers how many bytes it has; what is behind
   them in `to` stays. On any refusal `to` is left as it was. A map is made from the inside out: what stands in a
   container is written one behind the other, then the container around those bytes. A struct's fields are each a
   field ID, a VarUInt, and a value.

   `to`, `out` and the lent bytes do not overlap. The order of the refusals: 51 (nothing is written to either
   buffer), 68, 50, 71, then the reader's own (any of parts 1 and 2: what ion_map_check would refuse of the thing as
   a map; its position counts in the lent bytes then read, and is 0 for a descriptor that would be written), 70.

   The lent bytes then read are a container's or a scalar's body; a wrapper has two of them, its annotations and its
   value. Of the reader's own refusals of a wrapper 3 and 20 can lie in either, and number and position don't say in
   which; all others lie in the value, but for 23, 25, 26 and 29 at 0, which are of the wrapper that would be written. */

/* Kind of the record of part 5, beside ION_MAP_KIND_REFUSED: word 3 is the length; the others are 0. */
enum {
    ION_MAP_KIND_WRITTEN = 17
};

enum {
    ION_MAP_AT_WRITTEN_LENGTH = 3
};

/* The most bytes that a written thing has. An int, a scalar or a container has, beside the magnitude, the body or what
   is in it, at most ION_MAP_MOST_HEAD_SIZE; a wrapper, beside its annotations and its value, ION_MAP_MOST_WRAPPER_SIZE.
   A null and a bool have one byte, a float and a symbol at most ION_MAP_MOST_NUMBER_SIZE, a pad its size. A field ID,
   or an annotation, is a VarUInt, of at most ION_MAP_MOST_VAR_UINT_SIZE. So where there is that much room nothing is
   refused with 70. */
enum {
    ION_MAP_MOST_HEAD_SIZE = 10,    /* a descriptor, and a length of up to nine bytes */
    ION_MAP_MOST_WRAPPER_SIZE = 13, /* the same, and the annotations' length, of up to three */
    ION_MAP_MOST_NUMBER_SIZE = 9,   /* a descriptor, and eight bytes */
    ION_MAP_MOST_VAR_UINT_SIZE = 9
};

/* Refusals that only the functions of part 5 give. */
enum {
    ION_MAP_REFUSAL_NO_ROOM_TO_WRITE = 70, /* `to` is too short, tested last - how many bytes are needed */
    ION_MAP_REFUSAL_NO_SUCH_LENGTH = 71    /* a pad of size 0, or a length past nine VarUInt bytes - 0 */
};

#ifdef __cplusplus
extern "C" {
#endif

/* A null of a type, ION_MAP_TYPE_..., 0 to 13 (else 50); both codes of ints write one null, 2F. */
uint64_t ion_map_write_null(size_t type, uint8_t *to, size_t to_len, uint8_t *out, size_t out_len);
/* A bool: 0 or 1 (else 50). */
uint64_t ion_map_write_bool(uint64_t value, uint8_t *to, size_t to_len, uint8_t *out, size_t out_len);
/* An int by its magnitude, the most significant byte first, of any length; leading zero bytes are not written. It is
   negative where `negative` is 1 (0 or 1, else 50); a negative zero is refused with 34. */
uint64_t ion_map_write_int(const uint8_t *magnitude, size_t magnitude_len, uint64_t negative, uint8_t *to,
                           size_t to_len, uint8_t *out, size_t out_len);
/* The float with these 64 bits, in eight bytes; positive zero in none. */
uint64_t ion_map_write_float(uint64_t bits, uint8_t *to, size_t to_len, uint8_t *out, size_t out_len);
/* A symbol by its ID. */
uint64_t ion_map_write_symbol(uint64_t id, uint8_t *to, size_t to_len, uint8_t *out, size_t out_len);
/* A pad of this total size, from 1 up. Its body is zeros. */
uint64_t ion_map_write_pad(size_t size, uint8_t *to, size_t to_len, uint8_t *out, size_t out_len);
/* A decimal, a timestamp, a string, a clob or a blob (types 5, 6, 8, 9, 10, else 50) by its representation. */
uint64_t ion_map_write_scalar(size_t type, const uint8_t *body, size_t body_len, uint8_t *to, size_t to_len,
                              uint8_t *out, size_t out_len);
/* A list, a sexp or an unordered struct (types 11, 12, 13, else 50) around a body that is written. It stands at depth
   0, what is in it at depth 1. */
uint64_t ion_map_write_container(size_t type, const uint8_t *body, size_t body_len, size_t annotations, size_t depth,
                                 uint8_t *to, size_t to_len, uint8_t *out, size_t out_len);
/* A wrapper of annotation IDs, one VarUInt behind the other, around one value that is written. */
uint64_t ion_map_write_wrapper(const uint8_t *annotation_bytes, size_t annotation_len, const uint8_t *value,
                               size_t value_len, size_t annotations, size_t depth, uint8_t *to, size_t to_len,
                               uint8_t *out, size_t out_len);

#ifdef __cplusplus
}
#endif

/* ======================================= End of part 5 ======================================= */

/* ======================================= Old names ======================================= */

/* Deprecated: what the indexes of words were called up to version 0.3. Version 0.5 has them no more; where
   ION_MAP_NO_OLD_NAMES is defined this one hasn't either. */
#ifndef ION_MAP_NO_OLD_NAMES
enum {
    ION_MAP_WORD_KIND = ION_MAP_AT_KIND,
    ION_MAP_WORD_LENGTH = ION_MAP_AT_LENGTH,
    ION_MAP_VALUE_BYTE = ION_MAP_AT_VALUE_BYTE,
    ION_MAP_VALUE_START = ION_MAP_AT_VALUE_START,
    ION_MAP_VALUE_ANNOTATIONS = ION_MAP_AT_VALUE_ANNOTATIONS,
    ION_MAP_VALUE_DESCRIPTOR = ION_MAP_AT_VALUE_DESCRIPTOR,
    ION_MAP_VALUE_BODY = ION_MAP_AT_VALUE_BODY,
    ION_MAP_VALUE_END = ION_MAP_AT_VALUE_END,
    ION_MAP_VALUE_FIELD_ID = ION_MAP_AT_VALUE_FIELD_ID,
    ION_MAP_MARKER_BYTE = ION_MAP_AT_MARKER_BYTE,
    ION_MAP_MARKER_START = ION_MAP_AT_MARKER_START,
    ION_MAP_MARKER_MAJOR = ION_MAP_AT_MARKER_MAJOR,
    ION_MAP_MARKER_MINOR = ION_MAP_AT_MARKER_MINOR,
    ION_MAP_MARKER_BODY = ION_MAP_AT_MARKER_BODY,
    ION_MAP_MARKER_END = ION_MAP_AT_MARKER_END,
    ION_MAP_END_POSITION = ION_MAP_AT_END_POSITION,
    ION_MAP_REFUSED_NUMBER = ION_MAP_AT_REFUSED_NUMBER,
    ION_MAP_REFUSED_POSITION = ION_MAP_AT_REFUSED_POSITION,
    ION_MAP_CHECK_MARKERS = ION_MAP_AT_CHECK_MARKERS,
    ION_MAP_CHECK_PADS = ION_MAP_AT_CHECK_PADS,
    ION_MAP_CHECK_NULLS = ION_MAP_AT_CHECK_NULLS,
    ION_MAP_CHECK_BOOLS = ION_MAP_AT_CHECK_BOOLS,
    ION_MAP_CHECK_INTS = ION_MAP_AT_CHECK_INTS,
    ION_MAP_CHECK_FLOATS = ION_MAP_AT_CHECK_FLOATS,
    ION_MAP_CHECK_DECIMALS = ION_MAP_AT_CHECK_DECIMALS,
    ION_MAP_CHECK_TIMESTAMPS = ION_MAP_AT_CHECK_TIMESTAMPS,
    ION_MAP_CHECK_SYMBOLS = ION_MAP_AT_CHECK_SYMBOLS,
    ION_MAP_CHECK_STRINGS = ION_MAP_AT_CHECK_STRINGS,
    ION_MAP_CHECK_CLOBS = ION_MAP_AT_CHECK_CLOBS,
    ION_MAP_CHECK_BLOBS = ION_MAP_AT_CHECK_BLOBS,
    ION_MAP_CHECK_LISTS = ION_MAP_AT_CHECK_LISTS,
    ION_MAP_CHECK_SEXPS = ION_MAP_AT_CHECK_SEXPS,
    ION_MAP_CHECK_STRUCTS = ION_MAP_AT_CHECK_STRUCTS,
    ION_MAP_MORE_PADS = ION_MAP_AT_MORE_PADS,
    ION_MAP_MORE_POSITION = ION_MAP_AT_MORE_POSITION,
    ION_MAP_ANNOTATION_START = ION_MAP_AT_ANNOTATION_START,
    ION_MAP_ANNOTATION_ID = ION_MAP_AT_ANNOTATION_ID,
    ION_MAP_ANNOTATION_END = ION_MAP_AT_ANNOTATION_END,
    ION_MAP_BODY_PART = ION_MAP_AT_BODY_PART,
    ION_MAP_BODY_DESCRIPTOR = ION_MAP_AT_BODY_DESCRIPTOR,
    ION_MAP_BODY_START = ION_MAP_AT_BODY_START,
    ION_MAP_BODY_END = ION_MAP_AT_BODY_END,
    ION_MAP_SCALAR_BYTE = ION_MAP_AT_SCALAR_BYTE,
    ION_MAP_SCALAR_DESCRIPTOR = ION_MAP_AT_SCALAR_DESCRIPTOR,
    ION_MAP_SCALAR_WHAT = ION_MAP_AT_SCALAR_WHAT,
    ION_MAP_SCALAR_NUMBER = ION_MAP_AT_SCALAR_NUMBER,
    ION_MAP_SCALAR_START = ION_MAP_AT_SCALAR_START,
    ION_MAP_SCALAR_END = ION_MAP_AT_SCALAR_END,
    ION_MAP_NUMBER_NEGATIVE = ION_MAP_AT_NUMBER_NEGATIVE,
    ION_MAP_NUMBER_POSITION = ION_MAP_AT_NUMBER_POSITION,
    ION_MAP_NUMBER_VALUE = ION_MAP_AT_NUMBER_VALUE,
    ION_MAP_NUMBER_REST = ION_MAP_AT_NUMBER_REST,
    ION_MAP_NUMBER_END = ION_MAP_AT_NUMBER_END,
    ION_MAP_DECIMAL_NEGATIVE = ION_MAP_AT_DECIMAL_NEGATIVE,
    ION_MAP_DECIMAL_START = ION_MAP_AT_DECIMAL_START,
    ION_MAP_DECIMAL_FIRST = ION_MAP_AT_DECIMAL_FIRST,
    ION_MAP_DECIMAL_EXPONENT_NEGATIVE = ION_MAP_AT_DECIMAL_EXPONENT_NEGATIVE,
    ION_MAP_DECIMAL_REST = ION_MAP_AT_DECIMAL_REST,
    ION_MAP_DECIMAL_END = ION_MAP_AT_DECIMAL_END,
    ION_MAP_DECIMAL_EXPONENT = ION_MAP_AT_DECIMAL_EXPONENT,
    ION_MAP_TIMESTAMP_PRECISION = ION_MAP_AT_TIMESTAMP_PRECISION,
    ION_MAP_TIMESTAMP_DESCRIPTOR = ION_MAP_AT_TIMESTAMP_DESCRIPTOR,
    ION_MAP_TIMESTAMP_OFFSET = ION_MAP_AT_TIMESTAMP_OFFSET,
    ION_MAP_TIMESTAMP_FIELDS = ION_MAP_AT_TIMESTAMP_FIELDS,
    ION_MAP_TIMESTAMP_EXPONENT = ION_MAP_AT_TIMESTAMP_EXPONENT,
    ION_MAP_TIMESTAMP_EXPONENT_NEGATIVE = ION_MAP_AT_TIMESTAMP_EXPONENT_NEGATIVE,
    ION_MAP_TIMESTAMP_COEFFICIENT = ION_MAP_AT_TIMESTAMP_COEFFICIENT,
    ION_MAP_TEXT_WHERE = ION_MAP_AT_TEXT_WHERE,
    ION_MAP_TEXT_START = ION_MAP_AT_TEXT_START,
    ION_MAP_TEXT_END = ION_MAP_AT_TEXT_END,
    ION_MAP_TEXT_ID = ION_MAP_AT_TEXT_ID,
    ION_MAP_SYMBOLS_LISTED = ION_MAP_AT_SYMBOLS_LISTED,
    ION_MAP_SYMBOLS_START = ION_MAP_AT_SYMBOLS_START,
    ION_MAP_SYMBOLS_END = ION_MAP_AT_SYMBOLS_END,
    ION_MAP_PACKED_SIZE = ION_MAP_AT_PACKED_SIZE,
    ION_MAP_WRITTEN_LENGTH = ION_MAP_AT_WRITTEN_LENGTH
};
#endif

#endif
