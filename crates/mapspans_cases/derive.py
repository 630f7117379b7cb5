#!/usr/bin/env python3
"""The stored cases of mapspans: data/NAME.ion is its input, and `stdout` what it prints, under each input's name.

    ./derive.py                                                     writes data/, args and stdout beside this file
    ./derive.py check                                               compares the files with what would be written
    ./derive.py questions | oracle/answer | ./derive.py compare     asks ion-rust for the same walks
    oracle/generate 1 100000 walks | oracle/answer | ./derive.py compare

The walk below follows the scope paper and the change requests after it, and shares nothing with the reader that it is compared
with. A position is counted from the start of the input; a part at..end holds `at` and not `end`.
"""

import sys
from collections import namedtuple
from pathlib import Path

MOST_INPUT = 65536
MOST_NUMBER_BYTES = 9

# The change request A.9: the most bytes of a wrapper's annotations, and the depth at which a container is too deep. `mapspans` keeps the scope paper's.
Limits = namedtuple("Limits", "annotations depth")
SCOPE = Limits(255, 32)

# Type codes, by the names that the walk prints; both signs of an int have one name.
NAMES = "null bool int int float decimal timestamp symbol string clob blob list sexp struct".split()
NULL, BOOL, INT, _, FLOAT, _, TIMESTAMP, _, STRING, CLOB, BLOB, LIST, SEXP, STRUCT, WRAPPER = range(15)
MARKER = 0xE0

# ===== The walk =====


class Refused(Exception):
    def __init__(self, number, position):
        super().__init__(number, position)
        self.number, self.position = number, position


# What a step hands out. `start` is the field ID's, the wrapper's or the descriptor's position; a marker's `byte` is E0.
Item = namedtuple("Item", "byte start descriptor body end")


def is_pad(byte):
    return byte < 0x0F


def is_wrapper(byte):
    return 0xE0 < byte < 0xF0


def is_value(byte):
    return 0x0F <= byte < 0xE0


def refuse_if(condition, number, position):
    if condition:
        raise Refused(number, position)


def var_uint(data, at, end):
    """The number at `at` and the position after it. A number without a last byte is 3, however long it is."""
    value = 0
    for i in range(at, end):
        value = value * 128 + data[i] % 128
        if data[i] >= 0x80:
            refuse_if(i + 1 - at > MOST_NUMBER_BYTES, 20, at)
            return value, i + 1
    raise Refused(3, end)


def coded_length(data, at, end, code):
    """The length that a length code says, and the position after its VarUInt if it has one."""
    if code == 14:
        return var_uint(data, at, end)
    return (0 if code == 15 else code), at


def value_length(data, at, end):
    """The length of the body of the value whose descriptor is at `at`, and where the body starts."""
    kind, code = divmod(data[at], 16)
    if kind in (NULL, BOOL):
        return 0, at + 1
    is_ordered = kind == STRUCT and code == 1
    length, body = coded_length(data, at + 1, end, 14 if is_ordered else code)
    refuse_if(kind == FLOAT and code not in (0, 4, 8, 15), 30, at)
    refuse_if(kind == TIMESTAMP and code != 15 and length < 2, 31, at)
    refuse_if(is_ordered and length == 0, 32, at)
    return length, body


def plain_value(data, at, end):
    refuse_if(not is_value(data[at]), 22, at)
    length, body = value_length(data, at, end)
    refuse_if(length > end - body, 8, at)
    return Item(data[at], at, at, body, body + length)


def limits_fit(limits):
    """The change request A.9: 68 before 50."""
    refuse_if(not 255 <= limits.annotations <= 65535, 68, 0)
    refuse_if(not 1 <= limits.depth <= 64, 68, 0)


def annotated_value(data, at, end, limits):
    """The wrapper at `at` with the value in it. The annotations themselves aren't read."""
    combined, field = coded_length(data, at + 1, end, data[at] % 16)
    length, annotations = var_uint(data, field, end)
    room = combined - (annotations - field) - length
    refuse_if(length == 0, 23, at)
    refuse_if(room < 0, 24, at)
    refuse_if(room == 0, 25, at)
    # The change request A.10: 26 before 5, which is first in the scope paper.
    refuse_if(length > limits.annotations, 26, at)
    refuse_if(length > end - annotations, 5, annotations)
    inner = annotations + length
    refuse_if(inner == end, 1, inner)
    refuse_if(is_wrapper(data[inner]), 27, inner)
    refuse_if(is_pad(data[inner]), 28, inner)
    value = plain_value(data, inner, end)
    refuse_if(value.end - inner != room, 29, at)
    return value._replace(start=at)


def value(data, at, end, limits=SCOPE):
    return annotated_value(data, at, end, limits) if is_wrapper(data[at]) else plain_value(data, at, end)


def pad_end(data, at, end):
    length, body = coded_length(data, at + 1, end, data[at] % 16)
    refuse_if(length > end - body, 6, body)
    return body + length


def marker(data, at, end):
    refuse_if(end - at < 4, 2, at)
    refuse_if(data[at + 3] != 0xEA, 21, at)
    # The change request A.2: by the scope paper any two numbers pass.
    refuse_if((data[at + 1], data[at + 2]) != (1, 0), 60, at)
    return Item(MARKER, at, at, at + 4, at + 4)


def after_pads(data, at, end):
    while at < end and is_pad(data[at]):
        at = pad_end(data, at, end)
    return at


def step_stream(data, at, end, limits=SCOPE):
    """The next item of the stream at or after `at`; None at its end."""
    at = after_pads(data, at, end)
    if at == end:
        return None
    return marker(data, at, end) if data[at] == MARKER else value(data, at, end, limits)


def step_sequence(data, at, end, limits=SCOPE):
    at = after_pads(data, at, end)
    return None if at == end else value(data, at, end, limits)


def step_struct(data, at, end, limits=SCOPE):
    """A field ID stands before each value and each pad."""
    while at < end:
        _, after = var_uint(data, at, end)
        refuse_if(after == end, 7, after)
        if not is_pad(data[after]):
            return value(data, after, end, limits)._replace(start=at)
        at = pad_end(data, after, end)
    return None


STEP_IN = {LIST: step_sequence, SEXP: step_sequence, STRUCT: step_struct}


def is_open(byte):
    """A container that isn't null."""
    return byte // 16 in STEP_IN and byte % 16 != 15


def line(depth, item):
    name = "marker" if item.byte == MARKER else NAMES[item.byte // 16]
    return f"{depth} {name} {item.start} {item.descriptor} {item.body} {item.end}"


def part_lines(data, at, end, step, depth, limits):
    """A line for each item of the part, a container's before those of what is in it."""
    while item := step(data, at, end, limits):
        yield line(depth, item)
        if is_open(item.byte):
            refuse_if(depth == limits.depth, 37, item.descriptor)
            yield from part_lines(data, item.body, item.end, STEP_IN[item.byte // 16], depth + 1, limits)
        at = item.end


def walk(data, at, end, limits=SCOPE):
    lines = []
    try:
        limits_fit(limits)
        for text in part_lines(data, at, end, step_stream, 0, limits):
            lines.append(text)
        lines.append(f"end {end}")
    except Refused as refused:
        lines.append(f"refused {refused.number} {refused.position}")
    return lines


def mapspans(data):
    """What the program prints for an input."""
    if len(data) > MOST_INPUT:
        return [f"refused 54 {MOST_INPUT}"]
    return walk(data, 0, len(data))


# ===== What the inputs are made of =====


def h(text):
    return bytes.fromhex(text)


def join(*parts):
    return b"".join(parts)


def var(number, size=1):
    """A VarUInt of at least `size` bytes, with leading zeros where the number needs fewer."""
    digits = [number % 128 + 0x80]
    while number >= 128 or len(digits) < size:
        number //= 128
        digits.insert(0, number % 128)
    return bytes(digits)


def typed(kind, body, size=0):
    """A value whose length is a VarUInt of at least `size` bytes, or where `size` is 0 the descriptor's if it fits."""
    fits = len(body) < 14 and not (kind == STRUCT and len(body) == 1)
    if size == 0 and fits:
        return bytes([16 * kind + len(body)]) + body
    return bytes([16 * kind + 14]) + var(len(body), size) + body


def pad(body=b"", size=0):
    return typed(NULL, body, size)


def list_of(*items):
    return typed(LIST, join(*items))


def sexp_of(*items):
    return typed(SEXP, join(*items))


def struct_of(*items):
    return typed(STRUCT, join(*items))


def ordered_of(*items, size=1):
    body = join(*items)
    return h("D1") + var(len(body), size) + body


def field(number, item, size=1):
    return var(number, size) + item


def fields(*items):
    """The items with field IDs from 4 up."""
    return [field(4 + i, item) for i, item in enumerate(items)]


def wrapped(annotations, item, size=0, inner_size=1):
    """An annotation wrapper; `annotations` are the bytes of the IDs."""
    return typed(WRAPPER, var(len(annotations), inner_size) + annotations + item, size)


def annotated(item):
    return wrapped(h("84"), item)


VERSION = h("E0 01 00 EA")
ZERO = h("20")
SEVEN = h("21 07")
NULLS = [bytes([16 * kind + 15]) for kind in range(14)]
NAME = typed(STRING, b"terrain")


def in_list(item):
    return VERSION + list_of(ZERO, item) + SEVEN


def in_struct(item):
    """The item in a struct in a sexp, after a field and a pad."""
    return VERSION + sexp_of(SEVEN, struct_of(*fields(ZERO, pad(), item)), SEVEN) + SEVEN


# ===== The inputs =====


def scalars():
    """Every scalar type, with a body of every length that a descriptor can say and a longer one."""
    lengths = {FLOAT: [0, 4, 8], TIMESTAMP: [*range(2, 14), 40]}
    values = [h("10"), h("11")]
    for kind in range(INT, LIST):
        values += [typed(kind, bytes(range(1, n + 1))) for n in lengths.get(kind, [*range(14), 40])]
    return join(*values)


def nulls():
    """The null of every type in every kind of part, also annotated."""
    with_annotations = [annotated(null) for null in NULLS]
    return join(
        *NULLS,
        *with_annotations,
        list_of(*NULLS),
        sexp_of(*with_annotations),
        struct_of(*fields(*NULLS)),
        ordered_of(*fields(*with_annotations)),
    )


def long_lengths():
    """Lengths, wrapper lengths and field IDs of 1 to 9 bytes where fewer would do."""
    kinds = [kind for kind in range(INT, LIST) if kind != FLOAT]
    return join(
        *[typed(kind, h("01 02"), size) for size in range(1, 10) for kind in kinds],
        *[typed(kind, SEVEN, size) for size in (1, 2, 9) for kind in (LIST, SEXP)],
        *[typed(STRUCT, field(4, SEVEN, size), size) for size in (1, 2, 9)],
        *[ordered_of(field(4, SEVEN, size), size=size) for size in (1, 2, 9)],
        *[wrapped(h("84"), SEVEN, size, inner_size) for size in (0, 1, 9) for inner_size in (1, 2, 9)],
    )


def short_pads():
    return [pad(bytes([0xE0] * n)) for n in range(14)]


def long_pads():
    return [pad(b"", 1), pad(b"", 9), pad(h("20"), 1), pad(bytes([0xB1] * 300)), pad(bytes(1000), 5)]


def pads():
    """Pads of every code before, between and after what the stream holds."""
    some = join(*short_pads(), *long_pads())
    return join(some, VERSION, some, ZERO, some, list_of(), some)


def pads_in_bodies():
    """In a struct each pad has a field ID of its own."""
    some = short_pads() + long_pads()
    items = [*some, ZERO, *some, SEVEN, *some]
    return join(
        list_of(*items),
        sexp_of(*items),
        struct_of(*fields(*items)),
        ordered_of(*fields(*items)),
        list_of(pad()),
        sexp_of(*some),
        struct_of(*fields(*some)),
        struct_of(field(4, pad(), 9)),
        ordered_of(field(4, pad())),
        ordered_of(field(200, pad(bytes(200)))),
    )


def containers():
    """Each container empty, in each other one, and around items of its own."""
    empty = [list_of(), sexp_of(), struct_of(), typed(LIST, b"", 2), typed(SEXP, b"", 1), typed(STRUCT, b"", 1)]
    whole = [list_of(ZERO), sexp_of(SEVEN), struct_of(*fields(ZERO)), ordered_of(*fields(SEVEN))]
    return join(
        *empty,
        *whole,
        list_of(*empty, *whole),
        sexp_of(*empty, *whole),
        struct_of(*fields(*empty, *whole)),
        ordered_of(*fields(*empty, *whole)),
        list_of(sexp_of(struct_of(*fields(ordered_of(*fields(list_of(ZERO), SEVEN)), SEVEN)), SEVEN), SEVEN),
    )


def annotations():
    """On scalars, nulls and containers, in every kind of part; several IDs, 255 bytes, an ID without a last byte."""
    several = wrapped(h("84 85 01 80 00 00 86"), NAME)
    most = wrapped(h("84") * 255, SEVEN)
    inner = [annotated(ZERO), several, annotated(h("BF")), annotated(list_of(annotated(SEVEN)))]
    return join(
        *inner,
        most,
        wrapped(h("04"), ZERO),
        annotated(list_of(*inner)),
        annotated(sexp_of(*inner, most)),
        annotated(struct_of(*fields(*inner))),
        annotated(ordered_of(*fields(*inner, most))),
        *[annotated(h(text)) for text in ("10", "31 01", "44 00 00 00 00", "50", "62 80 8F", "71 04", "90", "A1 00")],
    )


def markers():
    """Between values, side by side, after pads, at the end; a pad and a blob hold the bytes of one that isn't 1.0."""
    other = h("E0 02 00 EA")
    return join(ZERO, VERSION, VERSION, SEVEN, pad(), VERSION, pad(other), VERSION, typed(BLOB, other), list_of(ZERO), VERSION)


def everything():
    """A small map: a table, terrain with routes, pads to overwrite, and a second version marker."""
    table = wrapped(h("83"), struct_of(field(7, list_of(NAME, typed(STRING, b"routes")))))
    cells = annotated(typed(BLOB, bytes(range(200))))
    yields = sexp_of(h("52 C2 07"), h("1F"), pad(bytes(20)), h("48 40 09 21 FB 54 44 2D 18"), h("DF"))
    stamp = typed(TIMESTAMP, h("C0 0F E8 81 82"))
    terrain = struct_of(field(10, cells), field(0, pad(bytes(100))), field(300, yields), field(11, stamp))
    stops = list_of(list_of(), struct_of(), annotated(h("71 0A")))
    routes = annotated(ordered_of(field(10, stops), field(12, h("CF"))))
    return join(VERSION, table, terrain, pad(bytes(15)), routes, VERSION, typed(CLOB, b"notes"), h("31 01 11 0F 00"))


def nested(depth, inner, opens=list_of):
    """`depth` containers around what stands at that depth."""
    for _ in range(depth):
        inner = opens(inner)
    return inner


def nested_in_turn(depth, inner):
    """Lists, sexps, structs and ordered structs in turn, with annotations, and an item after each."""
    for level in range(depth):
        opens = (list_of, sexp_of, struct_of, ordered_of)[level % 4]
        items = (pad(h("20")), annotated(inner) if level % 3 == 0 else inner, ZERO)
        inner = opens(*(fields(*items) if level % 4 > 1 else items))
    return inner


def depths():
    level = SCOPE.depth
    return {
        "deep": nested(level, SEVEN) + ZERO,
        "deep-twice": join(VERSION, nested_in_turn(level, NAME), ZERO, nested_in_turn(level, h("71 0A")), VERSION),
        "deep-nulls": nested(level, join(*NULLS, annotated(h("DF")))) + ZERO,
        "deep-pads": nested(level, join(pad(), pad(bytes(9)))) + ZERO,
        "refused-37-list": nested(level, list_of(ZERO)) + ZERO,
        "refused-37-empty": nested(level, struct_of()) + ZERO,
        "refused-37-last": VERSION + nested(level, join(ZERO, h("BF"), pad(), SEVEN, sexp_of(ZERO), ZERO)),
        "refused-37-field": nested(level - 1, struct_of(*fields(h("DF"), pad(), annotated(ordered_of(*fields(ZERO)))))),
        "refused-37-in-turn": VERSION + nested_in_turn(level, nested_in_turn(8, SEVEN)) + ZERO,
        "refused-37-damaged": nested(level, list_of(h("F0"))) + ZERO,
    }


def refusals():
    """The numbers that a walk can meet, in the stream, in a list or in a struct; most have more bytes after them."""
    ten = bytes(9) + h("80")
    return {
        "refused-01-end": VERSION + SEVEN + h("E3 81 84"),
        "refused-01-list": in_list(h("E3 81 84")),
        "refused-02": ZERO + VERSION + h("E0 01 00"),
        "refused-02-other-version": SEVEN + h("E0 02"),
        "refused-03-end": SEVEN + h("8E 00 01"),
        "refused-03-list": in_list(h("2E") + bytes(10)),
        "refused-03-field": VERSION + struct_of(*fields(SEVEN), h("05 06")) + ZERO,
        "refused-03-wrapper": in_list(h("EE 00")),
        "refused-05-list": in_list(h("E5 82 84")),
        "refused-05-of-255": ZERO + wrapped(h("84") * 255, SEVEN)[:-3],
        "refused-06-end": ZERO + h("0E 85 00 00"),
        "refused-06-list": in_list(h("03 00 00")),
        "refused-07": in_struct(ZERO + h("87")),
        "refused-08-end": VERSION + list_of(SEVEN) + h("8E 94") + b"cut short",
        "refused-08-list": VERSION + SEVEN + h("B5 21 07 20"),
        "refused-08-struct": in_struct(h("84") + b"cut"),
        "refused-08-wrapper": in_list(annotated(h("22"))),
        "refused-08-largest": in_list(h("AE") + h("7F") * 8 + h("FF")),
        "refused-20-list": in_list(h("2E") + ten),
        "refused-20-field": VERSION + struct_of(*fields(SEVEN), ten, ZERO) + ZERO,
        "refused-20-wrapper": in_struct(h("E5") + ten),
        "refused-21": SEVEN + pad() + h("E0 01 00 EB") + ZERO,
        "refused-21-other-version": h("E0 02 00 EB") + ZERO,
        "refused-22-stream": VERSION + SEVEN + pad(h("00")) + h("F0") + ZERO,
        "refused-22-marker-in-list": in_list(VERSION),
        "refused-22-marker-in-struct": in_struct(VERSION),
        "refused-22-marker-in-wrapper": ZERO + annotated(VERSION) + ZERO,
        "refused-22-other-version-in-list": in_list(h("E0 02 00 EA")),
        "refused-23": in_struct(h("E2 80 20")),
        "refused-24-list": in_list(h("E2 82 84 85 20")),
        "refused-24-null-code": in_struct(h("EF 81 84 20")),
        "refused-25": in_list(h("E2 81 84")),
        "refused-25-over-255": in_list(h("EE 02 82 02 80")) + h("84") * 256,
        "refused-26": in_struct(wrapped(h("84") * 256, SEVEN)),
        "refused-26-cut": ZERO + wrapped(h("84") * 256, SEVEN)[:-4],
        "refused-26-cut-smallest": h("EE 02 83 02 80"),
        "refused-26-cut-by-list": in_list(h("EE 02 83 02 80")) + h("84") * 256,
        "refused-26-cut-by-struct": in_struct(h("EE 02 AC 02 80 84 84")) + h("84") * 300,
        "refused-27": in_struct(annotated(annotated(ZERO))),
        "refused-28": in_struct(annotated(pad(h("20")))),
        "refused-29-shorter": in_struct(h("E4 81 84 20")),
        "refused-29-longer": in_list(h("E3 81 84 21 07")),
        "refused-29-past-end": SEVEN + h("E5 81 84 20"),
        "refused-30": in_struct(h("4E 84 00 00 00 00")),
        "refused-31": in_list(annotated(h("61 80"))),
        "refused-32": in_struct(annotated(h("D1 80"))),
        "refused-60-smallest": h("E0 00 00 EA"),
        "refused-60-major": h("E0 02 00 EA") + SEVEN,
        "refused-60-minor": ZERO + h("E0 01 01 EA") + ZERO,
        "refused-60-both": h("E0 FF 07 EA") + VERSION + SEVEN,
        "refused-60-swapped": VERSION + h("E0 00 01 EA") + VERSION,
        "refused-60-after-pad": h("00 E0 01 01 EA"),
        "refused-60-after-items": join(VERSION, list_of(ZERO, SEVEN), struct_of(*fields(NAME)), pad(bytes(20)), h("E0 01 02 EA"), ZERO),
    }


def up_to(size, data):
    """The data and a blob after it that ends at `size`."""
    body = size - len(data) - 4
    return data + typed(BLOB, bytes(i % 251 for i in range(body)))


def tile():
    """64 bytes with eight items."""
    items = join(struct_of(*fields(SEVEN, pad(), list_of(ZERO, ZERO))), annotated(h("71 0A")), NAME, h("52 C2 07"))
    return items + pad(bytes(64 - len(items) - 2), 1)


def largest():
    return {
        "full-blob": up_to(MOST_INPUT, VERSION),
        "full-items": VERSION + tile() * 1023 + typed(STRING, b"x" * 58, 1),
        "full-pads": bytes(MOST_INPUT),
        "refused-22-full": up_to(MOST_INPUT - 1, VERSION) + h("F0"),
        "refused-54-by-one": up_to(MOST_INPUT, VERSION) + ZERO,
    }


def cases():
    return {
        "example": h("E0 01 00 EA B3 21 07 00"),
        "empty": b"",
        "scalars": VERSION + scalars(),
        "bools": bytes(range(0x10, 0x20)),
        "nulls": nulls(),
        "long-lengths": long_lengths(),
        "pads": pads(),
        "pads-alone": join(*short_pads(), *long_pads()),
        "pads-in-bodies": pads_in_bodies(),
        "containers": containers(),
        "annotations": annotations(),
        "markers": markers(),
        "everything": everything(),
        **depths(),
        **refusals(),
        **largest(),
    }


# ===== Files and comparisons =====

FOLDER = Path(__file__).resolve().parent


def last_words(name):
    """How a case's output ends: one named after a refusal in that, any other at the input's end."""
    return f"refused {int(name.split('-')[1])} " if name.startswith("refused-") else "end "


def files():
    """What every file holds, by its path."""
    names, printed = [], []
    for name, data in cases().items():
        lines = mapspans(data)
        assert lines[-1].startswith(last_words(name)), (name, lines[-1])
        yield f"data/{name}.ion", data
        names.append(f"{name}.ion\n")
        printed.append(f"{name}.ion:\n" + "".join(text + "\n" for text in lines))
    yield "args", "".join(names).encode()
    yield "stdout", "".join(printed).encode()


def write():
    (FOLDER / "data").mkdir(exist_ok=True)
    for name, content in files():
        (FOLDER / name).write_bytes(content)


def check():
    wanted = dict(files())
    stored = [FOLDER / "args", FOLDER / "stdout", *FOLDER.glob("data/*")]
    found = {str(path.relative_to(FOLDER)): path.read_bytes() for path in stored}
    wrong = [name for name in sorted({*wanted, *found}) if wanted.get(name) != found.get(name)]
    for name in wrong:
        print(f"{name} differs")
    print(f"{len(wanted) - len(wrong)} of {len(wanted)} files as derived")
    return not wrong


def questions():
    """The walk of each input, as the oracle takes it. That an input is too long is the program's own answer."""
    for data in cases().values():
        if len(data) <= MOST_INPUT:
            print(f"walk {data.hex().upper() or '-'} 0 {len(data)}")


def told(lines):
    """The walk in one line, as the oracle prints it."""
    return " ; ".join(lines)


def same(ours, theirs):
    """Equal but for the positions that ion-rust hasn't got, `?`, and the mark of an answer that isn't ion-rust's, ` !`."""
    words, others = ours.split(" "), theirs.removesuffix(" !").split(" ")
    return len(words) == len(others) and all(other in (word, "?") for word, other in zip(words, others))


def compare():
    """Reads the oracle's answers to walks; other lines are passed over."""
    agreed = differed = positions = 0
    for text in sys.stdin:
        asked, equals, answer = text.rstrip("\n").partition(" = ")
        if not equals or not asked.startswith("walk ") or answer == "refused 50 0 !":
            continue
        _, data, at, end = asked.split(" ")
        mine = told(walk(b"" if data == "-" else h(data), int(at), int(end)))
        if same(mine, answer):
            agreed += 1
            positions += answer.endswith("?")
        else:
            differed += 1
            print(f"{asked[:200]}\n  here   {mine[-200:]}\n  oracle {answer[-200:]}")
    print(f"{agreed} walks agree, {differed} differ; {positions} that agree end in a refusal without a position there")
    return agreed > 0 and differed == 0


def main():
    commands = {"write": write, "check": check, "questions": questions, "compare": compare}
    command = commands.get(sys.argv[1] if len(sys.argv) > 1 else "write")
    if command is None:
        sys.exit(__doc__)
    if command() is False:
        sys.exit(1)


if __name__ == "__main__":
    main()
