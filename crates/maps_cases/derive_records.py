#!/usr/bin/env python3
"""The answers in data/: what each exported function returns, and what it leaves in its buffer.

    ./derive_records.py                                                           writes the answers behind the questions of data/, and stdout
    ./derive_records.py check                                                     compares the files with what would be written
    ./derive_records.py questions | oracle/answer | ./derive_records.py compare   asks ion-rust what it has an entry for

Behind the buffer's length a question may have the limits of the change request A.9: the most annotation bytes, and of `walked` and `check` also the depth. Without them they
are 255 and 32. What a value, a pad or a wrapper is and where it is refused comes from ../mapspans_cases/derive.py, which follows the scope paper and the change requests after
it. The records follow the paper's "Record", "Scalars" and "VarUInt, VarInt, Int" and the change requests A.6, A.1 and A.4, the kinds 5 to 8, 10 and 11 the tables of
include/ion_map.h.
Nothing is shared with the reader that is compared.
"""

import struct
import sys
from pathlib import Path

FOLDER = Path(__file__).resolve().parent
sys.dont_write_bytecode = True
sys.path.insert(0, str(FOLDER.parent / "mapspans_cases"))

import derive as steps  # noqa: E402
import derive_symbols  # noqa: E402
from derive import Refused, refuse_if, var_uint  # noqa: E402

FILL = 0xAA
WORD_SIZE = 8
RECORD_WORDS = 9
RECORD_SIZE = RECORD_WORDS * WORD_SIZE
CHECK_WORDS = 16
STEPS = [steps.step_stream, steps.step_sequence, steps.step_struct]
FIELDS = 2
END, MARKER, VALUE, FIELD, MORE, ANNOTATION, BODY, SCALAR, NUMBER, REFUSED, SPLIT, STAMP = range(12)
CHECKED, TEXT, SYMBOLS = 12, 13, 19
NULL, BOOL, INT, FLOAT, DECIMAL, TIMESTAMP, SYMBOL, STRING, CLOB, BLOB, CONTAINER = range(11)

# Refusals that each function can answer with; data/ is to have each of them.
FRAMING = {1, 3, 5, 8, 20, *range(22, 33)}
STEPPING = FRAMING | {2, 6, 7, 21, 50, 51, 60, 68}
REFUSALS = {
    "step": STEPPING,
    "steps": STEPPING,
    "annotation": {3, 20, 50, 51},
    "step_in": FRAMING | {50, 51, 52, 68},
    "scalar": FRAMING | {33, 34, 35, 36, 50, 51, 68},
    "number": {3, 4, 9, 20, 50, 51},
    "decimal": {4, 20, 50, 51},
    "timestamp": FRAMING | {4, 33, 34, 35, 36, 50, 51, 61, 62, 63, 68},
    "walked": set(),
    "ids": set(),
    "check": (STEPPING - {50}) | {4, 33, 34, 35, 36, 37, 61, 62, 63},
    "text": STEPPING | {36, 64, 65, 66},
    "symbols": STEPPING | {64, 65, 66},
    "symbol_text": (STEPPING | {36, 66}) - {2, 7, 21, 60},
    "step_bounded": STEPPING | {67},
    "packed_size": (STEPPING - {50}) | {4, 33, 34, 35, 36, 37, 61, 62, 63},
    "pack": (STEPPING - {50}) | {4, 33, 34, 35, 36, 37, 61, 62, 63, 69},
}

PACKED_SIZE, PACKED = 15, 16

# The file of the functions that write: its questions and answers are derive_writes.py's, here they are only counted.
OF_WRITES = "write"

# How many numbers a question has before its limits.
NUMBERS = {"step": 5, "steps": 5, "annotation": 4, "step_in": 4, "scalar": 4, "number": 6, "decimal": 3, "timestamp": 4}
NUMBERS |= {"packed_size": 1, "pack": 2}
NUMBERS |= {"walked": 1, "check": 1, "ids": 3, "text": 5, "symbols": 4, "symbol_text": 4, "step_bounded": 6}

# ===== The records' words =====


def record(*words, length=0):
    """The words of a record; the last is the length of what it hands out."""
    return [*words] + [0] * (RECORD_WORDS - 1 - len(words)) + [length]


def inside(data, start, end, position):
    refuse_if(not start <= position <= end <= len(data), 50, 0)


def annotations_start(data, at, descriptor):
    """Where the annotations of the value at `at` start: behind the wrapper's two lengths, or at the descriptor."""
    if at == descriptor:
        return at
    _, field = steps.coded_length(data, at + 1, descriptor, data[at] % 16)
    return var_uint(data, field, descriptor)[1]


def item_record(data, item, kind):
    if item.byte == steps.MARKER:
        return record(MARKER, item.byte, item.start, data[item.start + 1], data[item.start + 2], item.end, item.end)
    field, at = var_uint(data, item.start, item.end) if kind == FIELDS else (0, item.start)
    annotations = annotations_start(data, at, item.descriptor)
    words = [FIELD if kind == FIELDS else VALUE, item.byte, item.start, annotations, item.descriptor, item.body, item.end, field]
    return record(*words, length=item.end - item.body)


def step(data, start, end, position, kind, limits):
    steps.limits_fit(limits)
    refuse_if(kind > FIELDS, 50, 0)
    inside(data, start, end, position)
    item = STEPS[kind](data, position, end, limits)
    return item_record(data, item, kind) if item else record(END, 0, end)


def annotation(data, start, end, position, limits):
    inside(data, start, end, position)
    if position == end:
        return record(END, 0, end)
    number, after = var_uint(data, position, end)
    return record(ANNOTATION, 0, position, number, 0, 0, after)


def value_at(data, start, end, position, limits):
    steps.limits_fit(limits)
    inside(data, start, end, position)
    refuse_if(position == end, 1, position)
    return steps.value(data, position, end, limits)


def step_in(data, start, end, position, limits):
    item = value_at(data, start, end, position, limits)
    refuse_if(not steps.is_open(item.byte), 52, item.descriptor)
    part = 2 if item.byte // 16 == steps.STRUCT else 1
    return record(BODY, part, item.descriptor, 0, 0, item.body, item.end, length=item.end - item.body)


def float_bits(body):
    """IEEE 754 numbers of 0, 4 or 8 bytes as 64 bits; a NaN of 4 bytes keeps sign and fraction and gains the quiet bit."""
    if len(body) == 8:
        return int.from_bytes(body, "big")
    bits = int.from_bytes(body, "big")
    sign, exponent, fraction = bits >> 31, bits >> 23 & 255, bits & 0x7FFFFF
    if exponent == 255 and fraction:
        return sign << 63 | 0x7FF << 52 | 1 << 51 | fraction << 29
    number = struct.unpack(">f", body)[0] if body else 0.0
    return int.from_bytes(struct.pack(">d", number), "big")


def reading(data, item):
    """What a value is, its number, and its part."""
    code, (body, end, at) = item.byte % 16, (item.body, item.end, item.descriptor)
    name = steps.NAMES[item.byte // 16]
    whole = data[body:end]
    if code == 15:
        return NULL, 0, 0, 0
    if name == "bool":
        refuse_if(code > 1, 33, at)
        return BOOL, code, 0, 0
    if name == "int":
        negative = item.byte // 16 == 3
        magnitude = whole.lstrip(b"\0")
        refuse_if(negative and not magnitude, 34, at)
        return INT, int(negative), end - len(magnitude), end
    if name == "float":
        return FLOAT, float_bits(whole), 0, 0
    if name == "symbol":
        refuse_if(len(whole) > 8, 35, at)
        return SYMBOL, int.from_bytes(whole, "big"), 0, 0
    if name == "string":
        try:
            whole.decode("utf-8")
        except UnicodeDecodeError:
            raise Refused(36, at) from None
    parts = {"decimal": DECIMAL, "timestamp": TIMESTAMP, "string": STRING, "clob": CLOB, "blob": BLOB}
    return (parts[name], 0, body, end) if name in parts else (CONTAINER, 0, 0, 0)


def scalar(data, start, end, position, limits):
    item = value_at(data, start, end, position, limits)
    what, number, first, past = reading(data, item)
    return record(SCALAR, item.byte, item.descriptor, what, number, first, past, length=past - first)


def var_int(data, at, end):
    """Sign, magnitude and end. The first byte has the sign at 40 and six bits."""
    try:
        number, after = var_uint(data, at, end)
    except Refused as refused:
        raise Refused(4 if refused.number == 3 else refused.number, refused.position) from None
    top = 1 << 7 * (after - at) - 1
    return int(number >= top), number % top, after


def number(data, start, end, position, form, length, limits):
    refuse_if(form > 2, 50, 0)
    inside(data, start, end, position)
    if form == 0:
        value, after = var_uint(data, position, end)
        return record(NUMBER, 0, position, value, 0, after, after)
    if form == 1:
        negative, magnitude, after = var_int(data, position, end)
        return record(NUMBER, negative, position, magnitude, 0, after, after)
    refuse_if(length > end - position, 9, position)
    first = data[position] if length else 0
    return record(NUMBER, first // 128, position, first % 128, 0, position + min(length, 1), position + length)


def decimal(data, start, end, limits):
    """A.1: a VarInt, negative zero as 0, and an Int of the bytes that are left."""
    inside(data, start, end, start)
    if start == end:
        return record(SPLIT, 0, start, 0, 0, end, end)
    negative, exponent, after = var_int(data, start, end)
    first = data[after] if after < end else 0
    return record(SPLIT, first // 128, start, first % 128, int(negative and exponent > 0), min(after + 1, end), end, exponent)


def text_record(number, found):
    where, start, end = found
    return record(TEXT, where, 0, 0, 0, start, end, number, length=end - start)


def text(data, start, end, place, number, limits, lent):
    return text_record(number, derive_symbols.text(data, start, end, place, number, limits, lent))


def symbol_text(data, start, end, number, limits, lent):
    return text_record(number, derive_symbols.symbol_text(data, start, end, number, limits, lent))


def symbols(data, start, end, place, limits, lent):
    found = derive_symbols.symbols(data, start, end, place, limits, lent)
    first, past = found or (0, 0)
    return record(SYMBOLS, int(found is not None), 0, 0, 0, first, past, length=past - first)


def month_days(year, month):
    leap = year % 4 == 0 and year % 100 != 0 or year % 400 == 0
    return [31, 29 if leap else 28, 31, 30, 31, 30, 31, 31, 30, 31, 30, 31][month - 1]


def fields_fit(fields):
    """A.4: year, month, day, hour, minute and second within their ranges, those that are there."""
    year, month, day, hour, minute, second = fields + [None] * (6 - len(fields))
    return (
        1 <= year <= 9999
        and (month is None or 1 <= month <= 12)
        and (day is None or 1 <= day <= month_days(year, month))
        and (hour or 0) <= 23
        and (minute or 0) <= 59
        and (second or 0) <= 59
    )


def fraction(data, at, end):
    """Sign and magnitude of the exponent and of the coefficient, of the bytes behind the second."""
    negative, exponent, after = var_int(data, at, end)
    body = data[after:end]
    magnitude = int.from_bytes(body, "big") % (1 << max(8 * len(body) - 1, 0))
    return int(negative and exponent > 0), exponent, body[:1] > b"\x7f", magnitude


def fraction_fits(negative, exponent, below, coefficient):
    """Its coefficient times ten to its exponent, at least 0 and below 1."""
    if coefficient == 0:
        return True
    return bool(not below and negative and (exponent > 20 or coefficient < 10**exponent))


def stamp(data, item):
    """A.4: an offset, VarUInts, and a fraction behind the second."""
    negative, minutes, at = var_int(data, item.body, item.end)
    fields = []
    while len(fields) < 6 and (at < item.end or not fields):
        field, at = var_uint(data, at, item.end)
        fields.append(field)
    parts = fraction(data, at, item.end) if at < item.end else (0, 0, False, 0)
    refuse_if(len(fields) == 4, 61, item.descriptor)
    refuse_if(parts[3] >= 1 << 64, 63, item.descriptor)
    fits = minutes <= 1439 and fields_fit(fields) and fraction_fits(*parts)
    refuse_if(not fits, 62, item.descriptor)
    precision = 6 if at < item.end else [1, 2, 3, None, 4, 5][len(fields) - 1]
    unknown = len(fields) < 4 or negative and minutes == 0
    offset = 0 if unknown else 1440 + (-minutes if negative else minutes)
    word = sum(field << shift for field, shift in zip(fields, (0, 16, 24, 32, 40, 48)))
    return record(STAMP, precision, item.descriptor, offset, word, parts[1], parts[0], parts[3])


def timestamp(data, start, end, position, limits):
    item = value_at(data, start, end, position, limits)
    is_stamp = item.byte // 16 == 6 and item.byte % 16 != 15
    return stamp(data, item) if is_stamp else scalar(data, start, end, position, limits)


def walked(data, most, limits):
    return min(most, len(steps.walk(data, 0, len(data), limits)) - 1)


def behind_name(data, at, end, kind):
    """Where the descriptor stands of what begins at `at`: in a struct after its field ID."""
    if kind != FIELDS:
        return at
    _, after = var_uint(data, at, end)
    refuse_if(after == end, 7, after)
    return after


def step_bounded(data, start, end, position, kind, most, limits):
    """The change request A.8: "kind 4 exactly when that many pads were passed and another pad's descriptor comes next"."""
    steps.limits_fit(limits)
    refuse_if(kind > FIELDS, 50, 0)
    inside(data, start, end, position)
    refuse_if(most == 0, 67, 0)
    at, passed = position, 0
    while at < end:
        descriptor = behind_name(data, at, end, kind)
        if not steps.is_pad(data[descriptor]):
            break
        if passed == most:
            return record(MORE, passed, at)
        at = steps.pad_end(data, descriptor, end)
        passed += 1
    return step(data, start, end, at, kind, limits)


def struct_pads(data, at, end):
    """How many pads a struct step passes, and whether it ends behind them."""
    pads = 0
    try:
        while at < end:
            descriptor = behind_name(data, at, end, FIELDS)
            if not steps.is_pad(data[descriptor]):
                break
            at = steps.pad_end(data, descriptor, end)
            pads += 1
    except Refused:
        pass
    return pads, at == end


def ids(data, start, end, position, limits):
    """The change request A.3: "the pads skipped, and one more unless it ended or was refused before any ID"."""
    try:
        steps.limits_fit(limits)
        inside(data, start, end, position)
    except Refused:
        return 0
    pads, ended = struct_pads(data, position, end)
    return pads if ended else pads + 1


# ===== The check of a whole map =====


def pads_skipped(data, at, end, kind):
    """How many pads a step that isn't refused skips."""
    if kind == FIELDS:
        return struct_pads(data, at, end)[0]
    pads = 0
    while at < end and steps.is_pad(data[at]):
        at = steps.pad_end(data, at, end)
        pads += 1
    return pads


def type_place(byte):
    """Behind the counts of markers and pads: null, bool, int and so on; both signs of an int have one place."""
    code = byte // 16
    return 2 + code - (code > 2)


def check_value(data, item, kind, depth, limits, counts):
    """The change request A.5: "span first, annotations next, then its scalar or its inside". The span is the step's."""
    at = var_uint(data, item.start, item.end)[1] if kind == FIELDS else item.start
    at = annotations_start(data, at, item.descriptor)
    while at < item.descriptor:
        _, at = var_uint(data, at, item.descriptor)
    counts[type_place(item.byte)] += 1
    if steps.is_open(item.byte):
        refuse_if(depth == limits.depth, 37, item.descriptor)
        check_part(data, item.body, item.end, FIELDS if item.byte // 16 == steps.STRUCT else 1, depth + 1, limits, counts)
        return
    what = reading(data, item)[0]
    if what == DECIMAL:
        decimal(data, item.body, item.end, limits)
    if what == TIMESTAMP:
        stamp(data, item)


def check_part(data, at, end, kind, depth, limits, counts):
    while True:
        item = STEPS[kind](data, at, end, limits)
        counts[1] += pads_skipped(data, at, end, kind)
        if item is None:
            return
        if item.byte == steps.MARKER:
            counts[0] += 1
        else:
            check_value(data, item, kind, depth, limits, counts)
        at = item.end


def checked(data, limits):
    """Sixteen words: kind 12 and the counts, or a refusal and zeros."""
    counts = [0] * (CHECK_WORDS - 1)
    try:
        steps.limits_fit(limits)
        check_part(data, 0, len(data), 0, 0, limits, counts)
    except Refused as refused:
        return [REFUSED, refused.number, refused.position] + [0] * (CHECK_WORDS - 3)
    return [CHECKED, *counts]


# ===== The packed map: the change requests A.11 and A.12 =====


def var_uint_of(number):
    """A number in the fewest VarUInt bytes."""
    groups = [number % 128 + 128]
    while number >= 128:
        number //= 128
        groups.append(number % 128)
    return bytes(reversed(groups))


def of_length(kind, body):
    """A descriptor, a length in its shortest form, and the body."""
    if len(body) < 14:
        return bytes([16 * kind + len(body)]) + body
    return bytes([16 * kind + 14]) + var_uint_of(len(body)) + body


def packed_value(data, item, limits):
    """The value without its name: "descriptors of nulls and bools are copied", "an ordered struct left empty becomes D0"."""
    kind, code = divmod(item.byte, 16)
    if kind in (steps.NULL, steps.BOOL) or code == 15:
        return bytes([item.byte])
    body = data[item.body : item.end]
    if steps.is_open(item.byte):
        body = packed_part(data, item.body, item.end, FIELDS if kind == steps.STRUCT else 1, limits)
    if item.byte == 0xD1 and body:
        return bytes([item.byte]) + var_uint_of(len(body)) + body
    return of_length(kind, body)


def packed_part(data, at, end, kind, limits):
    packed = b""
    while (item := STEPS[kind](data, at, end, limits)) is not None:
        at = item.end
        if item.byte == steps.MARKER:
            packed += data[item.start : item.end]
            continue
        named = var_uint(data, item.start, item.end)[1] if kind == FIELDS else item.start
        annotations = data[annotations_start(data, named, item.descriptor) : item.descriptor]
        value = packed_value(data, item, limits)
        if annotations:
            value = of_length(steps.WRAPPER, var_uint_of(len(annotations)) + annotations + value)
        packed += data[item.start : named] + value
    return packed


def packed_size(data, limits):
    checks = checked(data, limits)
    refuse_if(checks[0] == REFUSED, *checks[1:3])
    return record(PACKED_SIZE, 0, 0, len(packed_part(data, 0, len(data), 0, limits)), 0, 0, 0, 0)


def pack(data, room, limits):
    """The record, and what is then in the buffer for the packed map, of `room` bytes."""
    lent = bytes([FILL]) * room
    try:
        size = packed_size(data, limits)[3]
        refuse_if(size > room, 69, size)
    except Refused as refused:
        return record(REFUSED, refused.number, refused.position), lent
    return record(PACKED, 0, 0, size, 0, 0, 0, 0), packed_part(data, 0, len(data), 0, limits) + lent[size:]


def pack_answer(question):
    _, data, limits, (size, room) = parsed(question)
    words, lent = pack(data, room, limits)
    records = [words] if size >= RECORD_SIZE else []
    left = lent if records else bytes([FILL]) * room
    return " ".join([str(returned(records)), ":", left.hex().upper() or "-", *shown(records, size)])


# ===== What a call returns and leaves =====

COUNTS = {"walked": walked, "ids": ids}

SINGLE = {
    "step": step,
    "step_bounded": step_bounded,
    "annotation": annotation,
    "step_in": step_in,
    "scalar": scalar,
    "number": number,
    "decimal": decimal,
    "timestamp": timestamp,
    "packed_size": packed_size,
}
OF_SYMBOLS = {"text": text, "symbols": symbols, "symbol_text": symbol_text}


def called(function, data, *arguments):
    """The record that a function fills."""
    try:
        return function(data, *arguments)
    except Refused as refused:
        return record(REFUSED, refused.number, refused.position)


def run(data, start, end, position, kind, limits, most):
    """The records of many steps, up to an end or a refusal."""
    records = []
    while len(records) < most:
        records.append(called(step, data, start, end, position, kind, limits))
        if records[-1][0] in (END, REFUSED):
            break
        position = records[-1][6]
    return records


def records_of(name, data, limits, *arguments):
    *rest, size = arguments
    if name == "check":
        return [checked(data, limits)] if size >= CHECK_WORDS * WORD_SIZE else []
    if size < RECORD_SIZE:
        return []
    return run(data, *rest, limits, size // RECORD_SIZE) if name == "steps" else [called(SINGLE[name], data, *rest, limits)]


def returned(records):
    if not records:
        return 51
    return records[-1][1] if records[-1][0] == REFUSED else 0


def shown(records, size):
    """A buffer's words, a `;` before each record's, `-` for eight bytes that are as they were; fewer than eight bytes in hexadecimal."""
    left = b"".join(struct.pack(f"<{len(words)}Q", *words) for words in records)
    left += bytes([FILL]) * (size - len(left))
    for at in range(0, size, WORD_SIZE):
        word = left[at : at + WORD_SIZE]
        if at % RECORD_SIZE == 0:
            yield ";"
        if len(word) < WORD_SIZE:
            yield word.hex().upper()
        else:
            yield "-" if word == bytes([FILL] * WORD_SIZE) else str(int.from_bytes(word, "little"))


def parsed(question):
    """The function, the map, the limits and the other arguments."""
    name, data, *words = question.split(" ")
    numbers = [int(n) for n in words]
    limits = steps.SCOPE._replace(**dict(zip(steps.Limits._fields, numbers[NUMBERS[name] :])))
    return name, b"" if data == "-" else bytes.fromhex(data), limits, numbers[: NUMBERS[name]]


def symbols_answer(question):
    """Of a function on symbols, whose question may have the lent system text behind the limit; without it that is the nine texts."""
    name, data, *words = question.split(" ")
    count = NUMBERS[name]
    lent = bytes.fromhex(words[count + 1].replace("-", "")) if len(words) > count + 1 else derive_symbols.SYSTEM
    _, data, limits, (*rest, size) = parsed(" ".join([name, data, *words[: count + 1]]))
    records = [called(OF_SYMBOLS[name], data, *rest, limits, lent)] if size >= RECORD_SIZE else []
    return " ".join([str(returned(records)), *shown(records, size)])


def answer(question):
    if question.split(" ")[0] in OF_SYMBOLS:
        return symbols_answer(question)
    if question.split(" ")[0] == "pack":
        return pack_answer(question)
    name, data, limits, numbers = parsed(question)
    if name in COUNTS:
        return str(COUNTS[name](data, *numbers, limits))
    records = records_of(name, data, limits, *numbers)
    count = [str(len(records))] if name == "steps" else []
    return " ".join([str(returned(records)), *count, *shown(records, numbers[-1])])


# ===== ion-rust's answers to the same =====


def told(name, data, words):
    """A record as the oracle writes it."""
    kind, *rest = words
    if kind == REFUSED:
        return f"refused {rest[0]} {rest[1]}"
    if kind == END:
        return "end" if name == "annotation" else f"end {rest[1]}"
    if kind == MARKER:
        return f"marker {words[2]} {words[3]} {words[4]} {words[6]}"
    if kind in (VALUE, FIELD):
        places = " ".join(str(word) for word in words[1:7])
        return f"value {places}" if kind == VALUE else f"field {words[7]} {places}"
    if kind == ANNOTATION:
        return f"{words[3]} {words[6]}"
    if kind == BODY:
        return f"{['sequence', 'struct'][words[1] - 1]} {words[5]} {words[6]}"
    return told_scalar(data, words)


def hexadecimal(body):
    return body.hex().upper() or "-"


def sign(negative):
    return "negative" if negative else "positive"


def told_scalar(data, words):
    _, byte, _, what, number, start, end, *_ = words
    if what == NULL:
        return f"null {steps.NAMES[byte // 16]}"
    if what == INT:
        return f"int {sign(number)} {hexadecimal(data[start:end])}"
    if what == FLOAT:
        return f"float {number:016X}"
    if what == CONTAINER:
        return "container"
    name = steps.NAMES[byte // 16]
    return f"{name} {number}" if what in (BOOL, SYMBOL) else f"{name} {start} {end}"


def told_number(data, form, words):
    kind, negative, _, value, _, rest, end, *_ = words
    if kind == REFUSED:
        return told("number", data, words)
    if form == 0:
        return f"{value} {end}"
    if form == 1:
        return f"{sign(negative)} {value} {end}"
    return f"{sign(negative)} {hexadecimal((bytes([value]) + data[rest:end]).lstrip(bytes(1)))} {end}"


def told_decimal(data, words):
    kind, negative, _, first, exponent_negative, rest, end, exponent, _ = words
    if kind == REFUSED:
        return told("decimal", data, words)
    return f"{sign(exponent_negative)} {exponent} {sign(negative)} {hexadecimal((bytes([first]) + data[rest:end]).lstrip(bytes(1)))}"


def asked(question):
    """The oracle's question and what it is to answer; nothing of IDs and symbols, where 50, 51, 67 or kind 4 is answered, or with other limits,
    which ion-rust hasn't got."""
    if question.split(" ")[0] in OF_SYMBOLS:
        return None
    name, data, limits, numbers = parsed(question)
    if limits != steps.SCOPE or name in ("ids", "packed_size", "pack"):
        return None
    text = question.split(" ")[1]
    if name == "walked":
        return f"walk {text} 0 {len(data)}", steps.told(steps.walk(data, 0, len(data)))
    records = records_of(name, data, limits, *numbers)
    if returned(records) in (50, 51, 67) or records[0][0] == MORE:
        return None
    if name == "decimal":
        return f"decimal {text} {numbers[0]} {numbers[1]}", told_decimal(data, records[0])
    start, end, position, *more = numbers
    if name == "timestamp":
        return None
    if name in ("step", "steps", "step_bounded"):
        rules = ["stream", "sequence", "struct"][more[0]]
        return f"{rules} {text} {position} {end} {len(records)}", " ; ".join(told(name, data, words) for words in records)
    if name == "annotation":
        return f"annotations {text} {position} {end} 1", told(name, data, records[0])
    if name == "number":
        form = ["varuint", "varint", "int"][more[0]]
        length = f" {more[1]}" if form == "int" else ""
        return f"{form} {text} {position} {end}{length}", told_number(data, more[0], records[0])
    return f"{name.replace('_', '')} {text} {start} {end} {position}", told(name, data, records[0])


def is_nan(answer):
    """Of a NaN only that it is one can be compared."""
    return answer.startswith("float ") and int(answer[6:], 16) % 2**63 > 0x7FF << 52


def same(ours, theirs):
    """Equal, or both a NaN."""
    return steps.same(ours, theirs) or is_nan(ours) and is_nan(theirs)


# ===== Files =====


def all_names():
    return [name.removesuffix(".txt") for name in (FOLDER / "args").read_text().split()]


def names():
    """The files whose answers are derived here."""
    return [name for name in all_names() if name != OF_WRITES]


def stored(name):
    """The lines of a file, each with its question where it has one."""
    for line in (FOLDER / "data" / f"{name}.txt").read_text().splitlines():
        yield line, "" if line.startswith("#") or not line else line.partition(" = ")[0]


def counts():
    """What the program writes where all agree."""
    return "".join(f"{name}.txt: {sum(1 for _, question in stored(name) if question)} agree, 0 differ\n" for name in all_names())


def files():
    for name in names():
        lines = [f"{question} = {answer(question)}" if question else line for line, question in stored(name)]
        questions = [question for _, question in stored(name) if question]
        numbers = {int(answer(question).split(" ")[0]) for question in questions} if REFUSALS[name] else set()
        assert numbers - {0} == REFUSALS[name], (name, numbers ^ REFUSALS[name])
        assert len(set(questions)) == len(questions), name
        yield f"data/{name}.txt", "".join(line + "\n" for line in lines)
    yield "stdout", counts()


def write():
    for name, content in files():
        (FOLDER / name).write_text(content)


def check():
    wrong = [name for name, content in files() if (FOLDER / name).read_text() != content]
    for name in wrong:
        print(f"{name} differs")
    return not wrong


def pairs():
    """Each question for the oracle, and the answer expected."""
    return [pair for name in names() for _, question in stored(name) if question and (pair := asked(question))]


def compare():
    """Reads the oracle's answers to the questions."""
    answers = [line.rstrip("\n").partition(" = ") for line in sys.stdin]
    agreed = differed = 0
    for (question, ours), (theirs_asked, _, theirs) in zip(pairs(), answers, strict=True):
        assert question == theirs_asked, (question, theirs_asked)
        if theirs == "unsupported":
            continue
        if same(ours, theirs):
            agreed += 1
        else:
            differed += 1
            print(f"{question[:200]}\n  here   {ours[-200:]}\n  oracle {theirs[-200:]}")
    print(f"{agreed} answers agree, {differed} differ, {len(answers) - agreed - differed} can't be compared")
    return differed == 0


def questions():
    for question, _ in pairs():
        print(question)


def main():
    commands = {"write": write, "check": check, "questions": questions, "compare": compare}
    command = commands.get(sys.argv[1] if len(sys.argv) > 1 else "write")
    if command is None:
        sys.exit(__doc__)
    if command() is False:
        sys.exit(1)


if __name__ == "__main__":
    main()
