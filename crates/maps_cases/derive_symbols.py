"""The change request A.7, "Text of a symbol": what a lookup answers, from the request's words. The steps are those of ../mapspans_cases/derive.py."""

import derive as steps
from derive import refuse_if, var_uint

NINE = ["$ion", "$ion_1_0", "$ion_symbol_table", "name", "version", "imports", "symbols", "max_id", "$ion_shared_symbol_table"]
SYSTEM = "".join(NINE).encode()
TABLE_ID, IMPORTS, SYMBOLS, FIRST_OWN = 3, 6, 7, 10
UNKNOWN, OWN, OF_SYSTEM = range(3)


def is_typed(item, kind):
    return item.byte // 16 == kind and item.byte % 16 != 15


def annotations_start(data, item):
    """Where the annotations of the value start: behind the wrapper's two lengths, or at the descriptor."""
    if item.start == item.descriptor:
        return item.start
    _, field = steps.coded_length(data, item.start + 1, item.descriptor, data[item.start] % 16)
    return var_uint(data, field, item.descriptor)[1]


def is_table(data, item):
    """A struct that isn't null and whose first annotation is 3."""
    if not is_typed(item, steps.STRUCT):
        return False
    first = annotations_start(data, item)
    return first < item.descriptor and var_uint(data, first, item.descriptor)[0] == TABLE_ID


def table_at(data, start, end, place, limits):
    """The table that rules at the place: the last one before it, if no marker follows it."""
    table, at = None, start
    while item := steps.step_stream(data, at, end, limits):
        if item.start == place:
            return table
        refuse_if(item.end > place, 50, 0)
        if item.byte == steps.MARKER:
            table = None
        elif is_table(data, item):
            table = item
        at = item.end
    refuse_if(place != end, 50, 0)
    return table


def list_of(data, table, limits):
    """The table's field 7 where that is a list."""
    field_seven, at = [], table.body
    while item := steps.step_struct(data, at, table.end, limits):
        name, _ = var_uint(data, item.start, table.end)
        refuse_if(name == IMPORTS, 64, item.start)
        refuse_if(name == SYMBOLS and field_seven, 65, item.start)
        if name == SYMBOLS:
            field_seven.append(item)
        at = item.end
    return next((item for item in field_seven if is_typed(item, steps.LIST)), None)


def entered(data, lent, limits):
    refuse_if(lent != SYSTEM, 66, 0)
    steps.limits_fit(limits)


def symbols(data, start, end, place, limits, lent):
    """The body of the list of the table that rules."""
    entered(data, lent, limits)
    refuse_if(not start <= place <= end <= len(data), 50, 0)
    table = table_at(data, start, end, place, limits)
    found = table and list_of(data, table, limits)
    return (found.body, found.end) if found else None


def text_under(data, start, end, number, limits):
    """Where the text of an ID lies, under the list with the body start..end."""
    if number == 0:
        return UNKNOWN, 0, 0
    if number < FIRST_OWN:
        first = sum(map(len, NINE[: number - 1]))
        return OF_SYSTEM, first, first + len(NINE[number - 1])
    at = start
    for _ in range(number - FIRST_OWN + 1):
        item = steps.step_sequence(data, at, end, limits)
        if item is None:
            return UNKNOWN, 0, 0
        at = item.end
    if not is_typed(item, steps.STRING):
        return UNKNOWN, 0, 0
    try:
        data[item.body : item.end].decode("utf-8")
    except UnicodeDecodeError:
        raise steps.Refused(36, item.descriptor) from None
    return OWN, item.body, item.end


def symbol_text(data, start, end, number, limits, lent):
    entered(data, lent, limits)
    refuse_if(not start <= end <= len(data), 50, 0)
    return text_under(data, start, end, number, limits)


def text(data, start, end, place, number, limits, lent):
    found = symbols(data, start, end, place, limits, lent)
    return text_under(data, *(found or (0, 0)), number, limits)
