#!/usr/bin/env python3
"""The questions of data/by-limits.txt and their answers: limits of annotation bytes and of depth, by the change request A.9.

    ./derive_limits.py          writes the file
    ./derive_limits.py check    compares it with what would be written

What is answered comes from ../mapspans_cases/derive.py and ../maps_cases/derive_records.py, which follow the scope paper and the change requests after it.
"""

import sys
from pathlib import Path

FOLDER = Path(__file__).resolve().parent
sys.dont_write_bytecode = True
sys.path[:0] = [str(FOLDER.parent / "mapspans_cases"), str(FOLDER.parent / "maps_cases")]

import derive as steps  # noqa: E402
import derive_records as records  # noqa: E402
from derive import Limits, Refused, h, list_of, typed, var, wrapped  # noqa: E402

FILE = FOLDER / "data" / "by-limits.txt"
IN_RANGE = [255, 256, 300, 65535]
OUT_OF_RANGE = [0, 254, 65536, 2**64 - 1]
DEPTHS = [1, 2, 32, 33, 64]
DEPTHS_OUT = [0, 65, 2**64 - 1]
RULES = ["stream", "sequence", "struct"]

HEAD = """# Limits of annotation bytes and of depth, by the change request A.9: at the ends of their ranges, inside them, and outside, where 68 comes before every other
# refusal. The limit is a question's last number, and the walk's depth stands behind it. By derive_limits.py.
"""


def cut(length):
    """A wrapper that says so many annotation bytes, and has none of them."""
    return h("EE") + var(length + len(var(length)) + 1) + var(length)


def full(length, item):
    return wrapped(h("84") * length, item)


def shown(make):
    """What a reading gives, or its refusal."""
    try:
        return make()
    except Refused as refused:
        return f"refused {refused.number} {refused.position}"


def wrapper(data, at, end, limits):
    """The wrapper's tests alone: a value that differs from its length passes."""
    steps.limits_fit(limits)
    combined, field = steps.coded_length(data, at + 1, end, data[at] % 16)
    length, annotations = steps.var_uint(data, field, end)
    room = combined - (annotations - field) - length
    steps.refuse_if(length == 0, 23, at)
    steps.refuse_if(room < 0, 24, at)
    steps.refuse_if(room == 0, 25, at)
    steps.refuse_if(length > limits.annotations, 26, at)
    steps.refuse_if(length > end - annotations, 5, annotations)
    return f"{annotations} {annotations + length} {room}"


def value(data, at, end, limits):
    steps.limits_fit(limits)
    words = records.item_record(data, steps.value(data, at, end, limits), 0)
    return records.told("step", data, words)


def answers(data, limit):
    """Each question on the value at 0 of a map, and its answer."""
    limits = Limits(limit, steps.SCOPE.depth)
    text, end = data.hex().upper(), len(data)
    yield f"wrapper {text} 0 {end} {limit}", shown(lambda: wrapper(data, 0, end, limits))
    for asked in ("value", "frame"):
        yield f"{asked} {text} 0 {end} {limit}", shown(lambda: value(data, 0, end, limits))
    for kind, rules in enumerate(RULES[:2]):
        yield stepped(data, kind, rules, limits)
    yield stepped(h("84") + data, 2, "struct", limits)
    for asked, entry in (("scalar", records.scalar), ("stepin", records.step_in)):
        words = records.called(entry, data, 0, end, 0, limits)
        yield f"{asked} {text} 0 {end} 0 {limit}", records.told(asked, data, words)
    yield walked(data, limits)


def stepped(data, kind, rules, limits):
    words = records.called(records.step, data, 0, len(data), 0, kind, limits)
    return f"{rules} {data.hex().upper() or '-'} 0 {len(data)} 1 {limits.annotations}", records.told("step", data, words)


def walked(data, limits):
    question = f"walk {data.hex().upper() or '-'} 0 {len(data)} {limits.annotations} {limits.depth}"
    return question, steps.told(steps.walk(data, 0, len(data), limits))


def nested(depth):
    """Containers in each other, the innermost of them empty."""
    data = b""
    for i in range(depth):
        kind = [steps.LIST, steps.STRUCT, steps.SEXP][i % 3]
        data = typed(kind, h("84") + data if kind == steps.STRUCT and data else data)
    return data


def pairs():
    for limit in IN_RANGE:
        for data in (cut(limit), cut(limit + 1)):
            yield from answers(data, limit)
    for length in (255, 256, 300):
        for limit in (255, 256, 299, 300):
            yield from answers(full(length, list_of(steps.ZERO)), limit)
    for limit in OUT_OF_RANGE:
        for data in (full(1, steps.ZERO), full(1, list_of()), cut(300)):
            yield from answers(data, limit)
        for kind, rules in enumerate(RULES):
            yield stepped(b"", kind, rules, Limits(limit, 32))
            yield f"{rules} 20 1 0 1 {limit}", "refused 68 0"
            yield f"{rules} 20 0 2 1 {limit}", "refused 68 0"
        yield f"value 20 0 2 {limit}", "refused 68 0"
        yield f"scalar 20 1 1 0 {limit}", "refused 68 0"
    for depth in DEPTHS:
        for levels in (depth, depth + 1, depth + 2):
            yield walked(nested(levels) + steps.SEVEN, Limits(255, depth))
    for depth in DEPTHS_OUT:
        for limit in (254, 255, 65535):
            yield walked(steps.SEVEN, Limits(limit, depth))


def content():
    asked = list(pairs())
    assert len({question for question, _ in asked}) == len(asked)
    return HEAD + "\n" + "".join(f"{question} = {answer}\n" for question, answer in asked)


def main():
    if sys.argv[1:] == ["check"]:
        sys.exit(FILE.read_text() != content() and "data/by-limits.txt differs")
    FILE.write_text(content())
    print(f"by-limits.txt: {content().count(' = ')} agree, 0 differ")


if __name__ == "__main__":
    main()
