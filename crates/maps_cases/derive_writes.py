#!/usr/bin/env python3
"""data/write.txt: what each exported function that writes returns, and what it leaves in its two buffers.

    ./derive_writes.py           prints the file
    ./derive_writes.py check     compares the stored one with what would be printed

The change request A.13. What is written is made here by the Ion document's typed value formats. Whether it is refused is asked of the whole thing as a
map, by the check of derive_records.py, which follows the change request A.5; the position is then counted in the lent bytes. Nothing is shared with the
writer that is compared.
"""

import sys

sys.dont_write_bytecode = True

from derive_records import FILL, FOLDER, RECORD_SIZE, REFUSED, checked, record, returned, shown  # noqa: E402
from derive_records import steps  # noqa: E402
from derive import Refused, refuse_if  # noqa: E402

WRITTEN = 17
MOST_VAR_UINT_BYTES = 9
NEGATIVE_INT, SYMBOL, DECIMAL = 3, 7, 5
SCALARS = (DECIMAL, steps.TIMESTAMP, steps.STRING, steps.CLOB, steps.BLOB)
CONTAINERS = (steps.LIST, steps.SEXP, steps.STRUCT)
h, var, typed = steps.h, steps.var, steps.typed

# ===== What is written: the Ion document, "Typed Value Formats" =====


def magnitude(number):
    """A UInt in the fewest bytes, none for zero."""
    return number.to_bytes((number.bit_length() + 7) // 8, "big")


def pad_front(size):
    """What stands before a pad's body, and the body's length: "lengths are the shortest, except in a pad where no shortest form has that size: there the
    length is a VarUInt in the fewest bytes that give the size"."""
    if 1 <= size <= 14:
        return bytes([size - 1]), size - 1
    lengths = [(count, size - 1 - count) for count in range(1, MOST_VAR_UINT_BYTES + 1)]
    given = [(count, n) for count, n in lengths if 0 <= n < 128**count]
    refuse_if(size == 0 or not given, 71, 0)
    shortest = [(count, n) for count, n in given if n > 13 and len(var(n)) == count]
    count, n = (shortest or given)[0]
    return h("0E") + var(n, count), n


# A thing to be written: the whole as a map, and which position in the lent bytes one of the map's is, 0 for those before them.


def lent_in(kind, body):
    """"A one-byte struct body is judged behind DE 81", which `typed` writes there: D1 is an ordered struct's."""
    whole = typed(kind, body)
    return whole, lambda number, position: max(0, position - (len(whole) - len(body)))


def wrapper_of(annotations, value):
    """The map, and the position in the annotations or in the value. Where they meet is the end of the annotations, which only a VarUInt without a last byte
    names, and the value's first byte."""
    whole = steps.wrapped(annotations, value)
    first = len(whole) - len(value) - len(annotations)
    meet = first + len(annotations)

    def place(number, position):
        in_value = position > meet or position == meet and number != 3
        return max(0, position - (meet if in_value else first))

    return whole, place


def descriptor_alone(whole):
    return whole, lambda number, position: 0


def judged(thing, limits):
    """"Where A.5 would refuse what is to be written, taken as a map, its number is given"."""
    whole, place = thing
    kind, number, position, *_ = checked(whole, limits)
    refuse_if(kind == REFUSED, number, place(number, position))
    return whole


# ===== The nine functions: their own 50, and the thing =====


def write_null(type_code, limits):
    refuse_if(type_code > steps.STRUCT, 50, 0)
    return descriptor_alone(h("2F") if type_code == NEGATIVE_INT else bytes([16 * type_code + 15]))


def write_bool(value, limits):
    refuse_if(value > 1, 50, 0)
    return descriptor_alone(bytes([0x10 + value]))


def write_int(magnitude_bytes, negative, limits):
    refuse_if(negative > 1, 50, 0)
    return descriptor_alone(typed(NEGATIVE_INT if negative else steps.INT, magnitude(int.from_bytes(magnitude_bytes, "big"))))


def write_float(bits, limits):
    return descriptor_alone(typed(steps.FLOAT, bits.to_bytes(8, "big") if bits else b""))


def write_symbol(number, limits):
    return descriptor_alone(typed(SYMBOL, magnitude(number)))


def write_scalar(body, type_code, limits):
    refuse_if(type_code not in SCALARS, 50, 0)
    return lent_in(type_code, body)


def write_container(body, type_code, limits):
    steps.limits_fit(limits)
    refuse_if(type_code not in CONTAINERS, 50, 0)
    return lent_in(type_code, body)


def write_wrapper(annotations, value, limits):
    steps.limits_fit(limits)
    return wrapper_of(annotations, value)


FUNCTIONS = {
    "write_null": write_null,
    "write_bool": write_bool,
    "write_int": write_int,
    "write_float": write_float,
    "write_symbol": write_symbol,
    "write_scalar": write_scalar,
    "write_container": write_container,
    "write_wrapper": write_wrapper,
}
LENDING = {"write_int", "write_scalar", "write_container", "write_wrapper"}


def fitted(size, room):
    refuse_if(size > room, 70, size)


def pad_written(size, room):
    """Its bytes are made only where they have room."""
    front, n = pad_front(size)
    fitted(size, room)
    assert len(front) + n == size
    return front + bytes(n)


def written(name, arguments, limits, room):
    """71 first, then what the reader refuses, 70 last."""
    if name == "write_pad":
        return pad_written(*arguments, room)
    whole = judged(FUNCTIONS[name](*arguments, limits), limits)
    fitted(len(whole), room)
    return whole


# ===== Questions and their answers =====


def of_hex(word):
    return b"" if word == "-" else bytes.fromhex(word)


def hexadecimal(data):
    return data.hex().upper() or "-"


def parsed(question):
    name, lent, size, room, said, *limits = question.split(" ")
    arguments = [of_hex(lent)] if name in LENDING else []
    arguments.append(of_hex(said) if name == "write_wrapper" else int(said))
    given = dict(zip(steps.Limits._fields, map(int, limits)))
    return name, arguments, steps.SCOPE._replace(**given), int(size), int(room)


def answer(question):
    name, arguments, limits, size, room = parsed(question)
    before = bytes([FILL]) * room
    after, records = before, []
    if size >= RECORD_SIZE:
        try:
            made = written(name, arguments, limits, room)
            records, after = [record(WRITTEN, 0, 0, len(made), 0, 0, 0, 0)], made + before[len(made) :]
        except Refused as refused:
            records = [record(REFUSED, refused.number, refused.position)]
    return " ".join([str(returned(records)), ":", hexadecimal(after), *shown(records, size)])


def asked(name, said, lent=b"", room=None, size=RECORD_SIZE, limits=()):
    """A question; the buffer has three bytes more than are written where no other length is said, and four where that is refused."""
    word = hexadecimal(said) if isinstance(said, bytes) else str(said)
    words = [name, hexadecimal(lent), str(size), "{room}", word, *map(str, limits)]
    if room is None:
        _, arguments, given, _, _ = parsed(" ".join(words).replace("{room}", "0"))
        try:
            room = len(written(name, arguments, given, MOST_ROOM)) + 3
        except Refused:
            room = 4
    assert room <= MOST_ROOM, room
    return " ".join(words).replace("{room}", str(room))


MOST_ROOM = 512


def rooms(name, said, lent=b"", limits=()):
    """With room for just what is written, for one byte less and for a byte more."""
    _, arguments, given, _, _ = parsed(asked(name, said, lent, 0, limits=limits))
    n = len(written(name, arguments, given, MOST_ROOM))
    return [asked(name, said, lent, room, limits=limits) for room in (n, n - 1, n + 1)]


def shorter_records(name, said, lent=b"", limits=()):
    """A buffer for the record that is too short, 51; longer ones, whose further bytes stay."""
    return [asked(name, said, lent, 12, size, limits) for size in (0, 1, 64, 71, 80)]


# ===== The questions =====


def several(text):
    """Bytes in hexadecimal, a comma between one and the next."""
    return [h(part) for part in text.split(",")]


def near(name, pairs, limits=()):
    return [question for said, lent in pairs for question in rooms(name, said, lent, limits)]


def in_short(name, pairs, limits=()):
    return [question for said, lent in pairs for question in shorter_records(name, said, lent, limits)]


def points():
    """The points that were decided, in their order."""
    return [
        asked("write_scalar", DECIMAL, h("01")),
        asked("write_scalar", steps.STRING, h("FF")),
        asked("write_wrapper", h("20"), h("84 04")),
        asked("write_wrapper", h("20 20"), h("04")),
        *[asked("write_wrapper", value, h("84")) for value in several(", E3 81 84 20, 00, 20 00")],
        asked("write_container", steps.STRUCT, h("84")),
        asked("write_container", steps.STRUCT, h("04")),
        asked("write_container", steps.LIST, h("B1 B0"), limits=(255, 1)),
        *[asked("write_pad", size, room=16) for size in (2**63 + 9, 2**63 + 10)],
        *[asked("write_pad", size) for size in (16, 15, 129, 130, 131)],
    ]


def nulls():
    name = "write_null"
    codes = [*range(16), 16, 31, 47, 255, 256, 2**32, 2**64 - 1]
    no_room = [asked(name, code, room=0) for code in (0, 2, 13, 14)]
    return [asked(name, code) for code in codes] + rooms(name, 3) + no_room + in_short(name, [(13, b""), (14, b"")])


def bools():
    name = "write_bool"
    values = [0, 1, 2, 15, 256, 257, 2**63, 2**64 - 1]
    no_room = [asked(name, 2, room=0)]
    return [asked(name, value) for value in values] + rooms(name, 0) + rooms(name, 1) + no_room + in_short(name, [(1, b""), (2, b"")])


def ints():
    name = "write_int"
    whole = [bytes(range(n, 0, -1)) for n in range(21)] + [h("FF") * n for n in (1, 8, 9, 20)] + [h("80") + bytes(n) for n in (7, 8)]
    leading = [bytes(zeros) + body for zeros in (1, 2, 13) for body in several(", 01, 00 FF, 07 00, 80 00 00 00 00")]
    long = [h("01") + bytes(n) for n in (126, 127)] + [bytes(200) + h("05"), bytes(300)]
    questions = [asked(name, negative, body) for negative in (0, 1) for body in whole + leading + long]
    flags = [asked(name, flag, body) for flag in (2, 256, 2**64 - 1) for body in several(", 07, 00")]
    edges = [(0, b""), *[(negative, h("01") * n) for negative in (0, 1) for n in (1, 13, 14, 127, 128)]]
    no_room = [asked(name, flag, body, room=0) for flag, body in ((1, b""), (1, h("00 00")), (2, h("07")), (0, h("00 00 07")))]
    return questions + flags + near(name, edges) + no_room + in_short(name, [(0, h("07")), (1, h("00")), (2, h("07"))])


def floats():
    name = "write_float"
    one, infinity = 0x3FF << 52, 0x7FF << 52
    numbers = [0, 1 << 63, one, one | 1 << 63, infinity, infinity | 1 << 63, 1, 2**52 - 1, 1 << 52, infinity - 1, 2**64 - 1]
    nans = [infinity | bits | sign << 63 for bits in (1, 2, 1 << 51, 1 << 51 | 1, 0x4000000000001, 2**52 - 1) for sign in (0, 1)]
    others = [0x400921FB54442D18, 0x3F80000000000000, 0x0102030405060708, 0x00000000000000FF, 0x40, 0xFF00000000000000]
    no_room = [asked(name, bits, room=0) for bits in (0, one)]
    return [asked(name, bits) for bits in numbers + nans + others] + near(name, [(0, b""), (one, b"")]) + no_room + in_short(name, [(one, b""), (0, b"")])


def symbols():
    name = "write_symbol"
    numbers = [0, 1, 2, 9, 10, 127, 128, 254, 255, 256, 257, 0x0100FF, 2**63, 2**63 - 1]
    numbers += [n for k in range(2, 8) for n in (256**k - 1, 256**k)] + [2**64 - 2, 2**64 - 1, 0x0102030405060708]
    return [asked(name, n) for n in numbers] + near(name, [(n, b"") for n in (0, 1, 256, 2**64 - 1)]) + in_short(name, [(10, b"")])


def pads():
    name = "write_pad"
    sizes = [*range(21), 64, 100, 126, 127, 128, 132, 133, 134, 255, 256, 300]
    large = [*range(16380, 16394), 65536, 2**32] + [128**k + k + n for k in range(3, 9) for n in (-1, 0, 1, 2)]
    large += [2**62, 2**63 - 1, 2**63, 2**63 + 1, 2**63 + 8, 2**63 + 11, 2**63 + 4096, 2**64 - 2, 2**64 - 1]
    exact = near(name, [(n, b"") for n in (1, 2, 14, 15, 16, 129, 130, 131, 256)])
    full = [asked(name, n, room=room) for n, room in ((512, 512), (513, 512), (0, 0), (2**63 + 10, 0), (2**63 + 9, 0))]
    short = in_short(name, [(5, b""), (0, b""), (2**63 + 10, b"")])
    return [asked(name, n) for n in sizes] + [asked(name, n, room=4) for n in large] + exact + full + short


TEN = bytes(9) + h("80")
WIDE_STAMP = h("80 0F E8 81 82 80 80 80 E8 01 00 00 00 00 00 00 00 00")


def decimals():
    """Good ones, cut ones, exponents of nine and of more bytes."""
    return [
        *several(", 80, C0, 81, C1 01, 80 00, 80 80, C2 07, C3 0B B8, 3F FF FF FF, 00 80 07, C0 FF, 7F FF 80 01 02 03 04 05 06 07 08 09 0A"),
        *several("00, 01, 7F, 40, 00 00, 7F 7F 7F, 00 00 00 00 00 00 00 00 00, 00 00 00 00 00 00 00 00 00 00 00"),
        *[TEN, TEN + h("07"), bytes(8) + h("80"), bytes(8) + h("80 07"), bytes(20) + h("80"), h("7F") * 8 + h("FF")],
        *[h("C1") + bytes(n) for n in (12, 13, 126, 127)],
    ]


def timestamps():
    good = several("""
        C0 0F E8, 80 81, C0 0F E8 81, 80 4E 8F 8C 9F, 0B 9F 81 81 81 97 BB, 4B 9F 81 81 81 97 BB, C0 0F D0 82 9D, C1 81 81 81 80 80""")
    outside = several("""
        80 80, 80 4E 90, 80 81 80, 80 81 8D, 80 81 81 80, 80 81 81 A0, C0 0F D1 82 9D, 0B A0 81, 4B A0 81, 80 81 84 9F, 81 80 8C 9F 97 BB""")
    short = several(", 80, 00, 81")
    cut = several("00 00, 01 02, 80 00, 80 0F, 80 0F E8 00, 00 00 00 00 00 00 00 00 00 00")
    day = h("80 0F E8 81 82")
    with_time = several("""
        , 80 80, 97 BB, 97 BB BB, 97 BB BB C3 01, 80 80 80 80, 80 80 80 C1, 80 80 80 85 80, 80 80 80 C1 09, 80 80 80 E8 00 FF FF FF FF FF FF FF FF,
        80, 97, 98, 98 80, 80 BC, 80 80 BC, 80 80 80 80 01, 80 80 80 C1 0A, 80 80 80 C1 81, 00, 80 00, 80 80 00, 80 80 80 00, 80 80 80 40""")
    no_hour = several("80 80 80 80 80, 80 80 81 81 80 80 80 E8 01 00 00 00 00 00 00 00 00")
    ended = [TEN + h("81"), h("80") + TEN, day + TEN, day + h("80 80 80") + TEN, day + h("80") + TEN]
    return good + outside + short + cut + [day + time for time in with_time] + no_hour + [WIDE_STAMP] + ended


def strings():
    good = ["", "a", "terrain", "fourteen bytes", "x" * 127, "x" * 128, "é", "€", "\U0010ffff", "\0", "\ud7ff\ue000", "\ufeff"]
    bad = several("""
        FF, 80, 61 80, C0 80, C1 BF, C3, C3 28, E0 80 80, E0 9F BF, ED A0 80, ED BF BF, E2 82, F0 80 80 80, F0 8F BF BF, F4 90 80 80, F5 80 80 80,
        F0 9F 98, 61 62 63 64 65 66 67 68 69 6A 6B 6C 6D FF""")
    return [text.encode() for text in good] + bad + [b"x" * 127 + h("FF")]


def scalars():
    name = "write_scalar"
    lists = {DECIMAL: decimals(), steps.TIMESTAMP: timestamps(), steps.STRING: strings()}
    any_bytes = [bytes(range(n)) for n in (0, 1, 2, 13, 14)] + several("FF, E0 01 00 EA")
    lists |= {steps.CLOB: any_bytes, steps.BLOB: any_bytes + [bytes(127), bytes(128)]}
    questions = [asked(name, code, body) for code, bodies in lists.items() for body in bodies]
    others = [*range(5), 7, *range(11, 19), 21, 261, 2**32 + 8, 2**64 - 1]
    questions += [asked(name, code, h("61")) for code in others] + [asked(name, code, h("01"), room=0) for code in (2, 7, 11, 14)]
    exact = [(steps.BLOB, h("01") * n) for n in (0, 1, 13, 14, 127, 128)]
    exact += [(DECIMAL, h("C1 01")), (steps.TIMESTAMP, h("C0 0F E8")), (steps.STRING, b"terrain"), (steps.CLOB, b"notes")]
    refused_first = [(DECIMAL, h("01")), (steps.STRING, h("FF")), (steps.TIMESTAMP, b""), (steps.TIMESTAMP, h("80 80"))]
    no_room = [asked(name, code, body, room=0) for code, body in refused_first] + [asked(name, steps.BLOB, bytes(1000), room=4)]
    return questions + near(name, exact) + no_room + in_short(name, [(steps.STRING, b"terrain"), (steps.STRING, h("FF")), (7, h("61"))])


def bodies_of_sequences():
    lengths = [h("20") * n for n in (0, 1, 2, 12, 13, 14, 15, 126, 127, 128)]
    good = several("""
        21 07, 00, 0E 80, 00 20 00, 8E 81 61, 0F 1F 2F 3F 4F 5F 6F 7F 8F 9F AF BF CF DF, E3 81 84 20, B0 C0 D0, B1 B1 B1 20, D1 82 84 20, D2 84 20, 40,
        44 7F A0 00 01, 48 7F F0 00 00 00 00 00 01, 31 01, 50, 52 C2 07, 63 C0 0F E8, 71 0A, 83 61 62 63, E4 82 84 85 20, E7 81 84 B4 E3 81 84 11""")
    bad = several("""
        8E, 21, 20 21, B2 20, 01, 20 01, 0E 81, E0 01 00 EA, 20 E0 01 00 EA, F0, 20 FF, E3 81 84, 20 E3 81 84, E3 82 84, E2 80 20, E2 81 84, E2 82 84 85,
        E4 81 84 E0, E4 81 84 00 00, E6 81 84 E3 81 84 20, E4 81 84 20, E3 81 04 20, 41 00, 4E 84 00 00 00 00, 61 80, 60, D1 80, 12, 20 1E, 30, 31 00,
        79 01 02 03 04 05 06 07 08 09, 81 FF, 20 82 61 80, 51 01, 20 51 40, 62 80 80, 66 80 0F E8 81 82 80, 63 80 80 00, 62 00 00, B1 12, C2 20 30, D1 84,
        D2 84 21, D1 82 84 21, EF 81 84 20, E5 82 84, E5 84 84, 2E 00 00, B3 B2 20 F0, 12 01, 20 B1 8E""")
    ended = [h("2E") + TEN, h("20 E5") + TEN, h("0E") + TEN, steps.wrapped(TEN, h("20")), typed(DECIMAL, TEN + h("07"))]
    return lengths + good + bad + ended + [typed(steps.TIMESTAMP, WIDE_STAMP)]


def bodies_of_structs():
    lengths = [h("84 20") * n for n in (0, 1, 6, 7, 63, 64)] + [h("84 21 07") + h("85 20") * n for n in (5, 6, 62, 63)]
    good = several("84 00, 00 84 20, 84 E3 81 84 20, 84 00 85 20, 80 0F, 84 D0, 84 B1 20, 84 D2 85 20, 84 D1 82 85 20, FF 8E 81 61, 0E 84 20, 84 20 84 20")
    bad = several("""
        84, 04, 00, FF, 7F, 84 21, 84 20 85, 84 20 05, 84 01, 84 E0 01 00 EA, 84 F0, 84 E2 80 20, 84 E3 81 84, 84 12, 84 30, 84 81 FF, 84 51 01, 84 D1 84,
        84 D1 80, 84 62 80 80, 84 E3 81 04 20, 84 20 85 E4 81 84 20, 84 B2 85 F0, 84 00 04""")
    return lengths + good + bad + [TEN + h("20"), h("84 20") + TEN]


def containers():
    name = "write_container"
    questions = [asked(name, steps.LIST, body) for body in bodies_of_sequences()]
    questions += [asked(name, steps.SEXP, body) for body in bodies_of_sequences()[::4]]
    questions += [asked(name, steps.STRUCT, body) for body in bodies_of_structs()]
    others = [*range(11), *range(14, 19), 27, 267, 2**32 + 11, 2**64 - 1]
    questions += [asked(name, code, h("20")) for code in others]
    exact = [(steps.LIST, h("20") * n) for n in (0, 1, 13, 14, 127, 128)] + [(steps.STRUCT, h("84 20") * n) for n in (0, 1, 7, 64)]
    no_room = [asked(name, code, body, room=0) for code, body in ((10, h("F0")), (steps.LIST, h("F0")), (steps.STRUCT, h("84")))]
    no_room += [asked(name, steps.LIST, h("20") * 1000, room=4)]
    short = in_short(name, [(steps.SEXP, h("21 07")), (steps.LIST, h("F0")), (10, h("20"))]) + in_short(name, [(steps.LIST, h("20"))], (254, 32))
    return questions + near(name, exact) + no_room + short


def depths():
    name = "write_container"
    around = [(deepest, n) for deepest in (1, 2, 3, 32, 33, 64) for n in (deepest - 2, deepest - 1, deepest) if n >= 0]
    questions = [asked(name, steps.LIST, steps.nested(n, h("20")), limits=(255, deepest)) for deepest, n in around]
    lists = several("B0, 20 C0, BF, D0, 00 DF, E3 81 84 B0, E3 81 04 B0, 12 B0, B0 12")
    structs = several("84 B0, 84 20 85 D2 84 20, 84 DF, 84 E3 81 84 C0")
    bodies = [(steps.LIST, body) for body in lists] + [(steps.STRUCT, body) for body in structs]
    return questions + [asked(name, code, body, limits=(255, 1)) for code, body in bodies]


OUTSIDE = [(254, 32), (65536, 32), (0, 32), (255, 0), (255, 65), (2**64 - 1, 2**64 - 1), (254, 0)]


def limited_containers():
    name = "write_container"
    many = [(n, most) for n, most in ((255, 255), (256, 255), (256, 256), (300, 299), (300, 300), (300, 65535))]
    questions = [asked(name, steps.LIST, steps.wrapped(h("84") * n, h("20")), limits=(most, 32)) for n, most in many]
    questions += [asked(name, said, body, limits=limits) for limits in OUTSIDE for said, body in ((steps.LIST, h("20")), (10, h("F0")))]
    return questions + [asked(name, steps.LIST, h("20"), limits=limits) for limits in ((255, 1), (255, 64), (65535, 1), (65535, 64))]


def wrappers():
    name = "write_wrapper"
    good = several("""
        20, 21 07, 0F, 11, 2F, DF, 40, 48 7F F0 00 00 00 00 00 01, 31 05, 52 C2 07, 63 C0 0F E8, 71 0A, 83 61 62 63, 90, A2 00 01, B0, B1 20, C0, D0, D2 84 20,
        D1 82 84 20, 2E 81 07, B4 E3 81 84 20, B1 00, D2 84 00""")
    bad = several("""
        , 00, 01 00, 0E 80, 0D, E3 81 84 20, E1, EF, E0 01 00 EA, E0, F0, FF, 21, 22 01, 8E, 2E 00, 8E 81, 20 20, 20 00, 21 07 F0, 20 E0 01 00 EA,
        41 00, 4E 84 00 00 00 00, 61 80, 60, D1 80, 12, 30, 31 00, 79 01 02 03 04 05 06 07 08 09, 81 FF, 51 01, 62 80 80, 66 80 0F E8 81 82 80, 63 80 80 00,
        B1 F0, B1 21, B1 01, B3 E3 81 84, B3 E2 80 20, D2 84 12, DE 81 84, D1 81 84, DE 81 04, B2 E1 80, C5 E4 82 84 85 20, B4 E3 81 04 20, B3 E2 82 84,
        B4 E3 82 84 20, BE 84 E5 82 84 20, B3 E5 82 84""")
    ended = [h("2E") + TEN, h("5B") + TEN + h("07"), typed(steps.LIST, TEN), typed(steps.TIMESTAMP, WIDE_STAMP)]
    questions = [asked(name, value, h("84")) for value in good + bad + ended]
    ids = several("""
        80, 84 85, 00 80, 01 80, 00 00 84, FF, 84 01 FF, 7F 7F 7F 7F 7F 7F 7F 7F FF, 84 85 86 87 88 89 8A 8B 8C 8D 8E, , 04, 84 04, 00, 84 00 00, 7F 84 7F""")
    long = [TEN, h("84") + TEN, TEN + h("84"), bytes(9), bytes(10), bytes(12), h("84") + bytes(10) + h("80"), TEN + h("04"), bytes(8) + h("80")]
    return questions + [asked(name, value, annotations) for annotations in ids + long for value in several("20, 83 61 62 63")]


def wrappers_in_order():
    """Two faults at once: the wrapper's own and the value's span before the annotations, these before what is in the value; 70 last."""
    name = "write_wrapper"
    unread = several("""
        , 00, E3 81 84 20, F0, 21, 20 20, 20 00, 8E, 60, 41 00, D1 80, 12, 30, 81 FF, 51 01, 62 80 80, B1 F0, B0""")
    pairs = [(b"", value) for value in several(", 00, F0")] + [(h("04"), value) for value in unread]
    pairs += [(h("84"), value) for value in several("12 00, B1 F0 00")]
    questions = [asked(name, value, annotations) for annotations, value in pairs]
    many = [h("84") * 256, bytes(256), h("84") * 255 + h("04")]
    questions += [asked(name, value, annotations) for annotations in many for value in several(", 20, 00, 20 20")]
    no_room = [(h("84"), value) for value in several(", 20 20, F0, B1 F0, 12")] + [(b"", h("20")), (h("04"), h("20"))]
    return questions + [asked(name, value, annotations, room=0) for annotations, value in no_room]


def limited_wrappers():
    name = "write_wrapper"
    many = [(254, 255), (255, 255), (256, 255), (256, 256), (257, 256), (300, 300), (301, 300), (301, 65535)]
    questions = [asked(name, h("20"), h("84") * n, limits=(most, 32)) for n, most in many]
    deep = [(deepest, n) for deepest in (1, 2, 32, 33, 64) for n in (deepest - 1, deepest, deepest + 1) if n]
    questions += [asked(name, steps.nested(n, h("20")), h("84"), limits=(255, deepest)) for deepest, n in deep]
    questions += [asked(name, value, h("84"), limits=(255, 1)) for value in several("B0, B1 B0, D2 84 C0, B2 B0 20")]
    questions += [asked(name, h("B1 B0"), h("04"), limits=(255, 1))]
    lent = ((h("84"), h("20")), (b"", b""))
    return questions + [asked(name, value, annotations, limits=limits) for limits in OUTSIDE for annotations, value in lent]


def wrappers_near():
    name = "write_wrapper"
    exact = [(h("20"), h("84") * n) for n in (1, 11, 12, 124, 125, 126, 127, 128, 255)] + [(h("21 07"), h("84"))]
    exact += [(typed(steps.BLOB, bytes(n)), h("84")) for n in (10, 11, 122, 123, 127, 128)]
    short = [(h("20"), h("84")), (h("00"), h("84")), (h("20"), b"")]
    return near(name, exact) + in_short(name, short) + in_short(name, short[:1], (255, 65))


SECTIONS = {
    "The points that were decided: positions in a body, a descriptor still to be written, where annotations and value meet, the order in a wrapper, no\n"
    "value, a wrapper, a pad and more than a value in a wrapper, one-byte struct bodies, the depth, the largest pad, pads of 16, 15, 129, 130 and 131.": points,
    "Nulls: each type, a negative int's as an int's; types from 14 up; room for 0 and 1 bytes; records of too few bytes and of more.": nulls,
    "Bools: 0 and 1, others.": bools,
    "Ints: magnitudes of 0 to 20 bytes and more, leading zero bytes, both signs, negative zero; flags above 1; lengths around 14 and 128.": ints,
    "Floats: both zeros, one, infinities, the least and the largest, NaNs with their bits.": floats,
    "Symbols: each count of bytes, its least and its largest ID.": symbols,
    "Pads: 0, each form, sizes that no shortest form has; larger ones than there is room for; the largest, and those past it.": pads,
    "Scalars: decimals, timestamps and strings, good and bad; clobs and blobs, of any bytes; other types.": scalars,
    "Containers: bodies of 0 to 300 bytes, good and bad ones, one-byte struct bodies; other types.": containers,
    "Containers around containers, at the limit of depth and around it: the container itself is at depth 0.": depths,
    "Containers under limits, and limits out of range, which are tested before the type.": limited_containers,
    "Wrappers: one of each value, values that are refused, annotation IDs.": wrappers,
    "Wrappers with two faults.": wrappers_in_order,
    "Wrappers under limits, and limits out of range.": limited_wrappers,
    "Wrappers of lengths around 14 and 128, with just room enough.": wrappers_near,
}

INTRODUCTION = """\
# The functions ion_map_write_...: what each returns, behind `:` the buffer for what is written, and the record. The question is
#     write_null - SIZE ROOM TYPE
#     write_bool - SIZE ROOM VALUE
#     write_int MAGNITUDE SIZE ROOM NEGATIVE
#     write_float - SIZE ROOM BITS
#     write_symbol - SIZE ROOM ID
#     write_pad - SIZE ROOM TOTAL
#     write_scalar BODY SIZE ROOM TYPE
#     write_container BODY SIZE ROOM TYPE [ANNOTATIONS DEPTH]
#     write_wrapper ANNOTATION-BYTES SIZE ROOM VALUE [ANNOTATIONS DEPTH]
# SIZE is how many bytes the record's buffer has and ROOM how many that for what is written, all AA before the call; `-` stands for no bytes. Behind `;`
# stand the words as in packed_size.txt. The answers are from the change request A.13 and the record's table in ion_map.h, by derive_writes.py.
"""

# The refusals that each function can answer with; the file is to have each of them. What is in a container, also in a wrapper's, may be refused in every way
# but those of a marker in a stream, 2, 21 and 60.
OF_BODIES = {1, *range(3, 9), 20, *range(22, 38), 61, 62, 63}
EXPECTED = {
    "write_null": {50, 51, 70},
    "write_bool": {50, 51, 70},
    "write_int": {34, 50, 51, 70},
    "write_float": {51, 70},
    "write_symbol": {51, 70},
    "write_pad": {51, 70, 71},
    "write_scalar": {3, 4, 20, 31, 36, 50, 51, 61, 62, 63, 70},
    "write_container": OF_BODIES | {50, 51, 68, 70},
    "write_wrapper": OF_BODIES | {51, 68, 70},
}


def text():
    asked_before, met, lines = set(), {name: set() for name in EXPECTED}, [INTRODUCTION]
    for heading, questions in SECTIONS.items():
        lines.append("\n# " + heading.replace("\n", "\n# ") + "\n")
        for question in dict.fromkeys(questions()):
            if question in asked_before:
                continue
            asked_before.add(question)
            answered = answer(question)
            met[question.split(" ")[0]].add(int(answered.split(" ")[0]))
            lines.append(f"{question} = {answered}\n")
    for name, numbers in met.items():
        assert numbers == EXPECTED[name] | {0}, (name, numbers ^ (EXPECTED[name] | {0}))
    return "".join(lines)


def main():
    command = sys.argv[1:]
    if command == []:
        sys.stdout.write(text())
    elif command == ["check"]:
        if (FOLDER / "data" / "write.txt").read_text() != text():
            sys.exit("data/write.txt differs")
    else:
        sys.exit(__doc__)


if __name__ == "__main__":
    main()
