"""The definitions of colfind once more, in Python and by brute force: from the lines of a table and of its tailor, a pattern and
the bytes of a text to what the program prints. It was written from the definitions in words, not from the code. See
random_searches.py."""

import contextlib
import functools
import unicodedata

MOST_PATTERN_BYTES = 65536
MOST_NON_STARTERS = 30
MOST_DECOMPOSITION = 4
MOST_KEY_POINTS = 64
MOST_ROW_ELEMENTS = 128

# An element is (is_variable, first, second, third). A table is a dict from tuples of code points to lists of elements,
# with a list of ranges (first, last, base). A point is (code point, class, byte offset, is_first).


def is_surrogate(code_point):
    return 0xD800 <= code_point <= 0xDFFF


@functools.cache
def decomposition(code_point):
    if is_surrogate(code_point):
        return [code_point]
    return [ord(c) for c in unicodedata.normalize("NFD", chr(code_point))]


@functools.cache
def combining_class(code_point):
    return 0 if is_surrogate(code_point) else unicodedata.combining(chr(code_point))


# ---- texts


def whole_characters(data):
    """The code points of the longest front of whole characters with their byte offsets, and where the rest begins."""
    characters, start = [], 0
    while start < len(data):
        for length in range(1, 5):
            piece = data[start : start + length]
            try:
                if len(piece) == length:
                    characters.append((ord(piece.decode("utf-8")), start))
                    start += length
                    break
            except UnicodeDecodeError:
                pass
        else:
            return characters, start
    return characters, None


def good_front(data):
    """The characters in front of the first fault, and the fault."""
    characters, bad = whole_characters(data)
    run = 0
    for place, (code_point, offset) in enumerate(characters):
        points = decomposition(code_point)
        if len(points) > MOST_DECOMPOSITION:
            return characters[:place], (33, offset)
        for point in points:
            run = run + 1 if combining_class(point) else 0
            if run > MOST_NON_STARTERS:
                return characters[:place], (32, offset)
    return characters, None if bad is None else (31, bad)


def points_of(characters):
    points = []
    for code_point, offset in characters:
        for place, part in enumerate(decomposition(code_point)):
            points.append((part, combining_class(part), offset, place == 0))
    ordered, start = [], 0
    while start < len(points):
        end = start
        while end < len(points) and points[end][1]:
            end += 1
        ordered += sorted(points[start:end], key=lambda point: point[1])
        ordered += points[end : end + 1]
        start = end + 1
    return ordered


# ---- collation elements


def code_points(points):
    return tuple(point[0] for point in points)


class LargeRows(dict):
    """The rows of a large table, which stay as they are: what is asked of all of them is found once."""

    @functools.cached_property
    def longest_string(self):
        return max(map(len, self))

    @functools.cached_property
    def longest_row(self):
        return max(map(len, self.values()))


def longest_string(rows):
    return rows.longest_string if isinstance(rows, LargeRows) else max(map(len, rows))


def longest_row(rows):
    return rows.longest_row if isinstance(rows, LargeRows) else max(map(len, rows.values()))


def prefix_length(rows, points):
    """How many points the longest mapped string in front has, or 1 where none is one."""
    most = min(longest_string(rows), len(points))
    key = code_points(points[:most])
    return next((n for n in range(most, 0, -1) if key[:n] in rows), 1)


def first_unit(rows, points):
    """The unit in front, and the points that it leaves."""
    length = prefix_length(rows, points)
    unit, rest = points[:length], points[length:]
    place = 0
    while place < len(rest) and rest[place][1]:
        mark = rest[place]
        is_blocked = any(other[1] >= mark[1] for other in rest[:place])
        if not is_blocked and code_points(unit + [mark]) in rows:
            unit, rest = unit + [mark], rest[:place] + rest[place + 1 :]
        else:
            place += 1
    return unit, rest


def units(rows, points):
    rest, found = list(points), []
    while rest:
        unit, rest = first_unit(rows, rest)
        found.append(unit)
    return found


@functools.cache
def is_core_ideograph(c):
    others = (0xFA0E, 0xFA0F, 0xFA11, 0xFA13, 0xFA14, 0xFA1F, 0xFA21, 0xFA23, 0xFA24, 0xFA27, 0xFA28, 0xFA29)
    return 0x4E00 <= c <= 0x9FFF or c in others


@functools.cache
def is_other_ideograph(c):
    blocks = ((0x3400, 0x4DBF), (0x20000, 0x2A6DF), (0x2A700, 0x2EE5F), (0x30000, 0x323AF))
    return any(first <= c <= last for first, last in blocks)


def implicit_pair(ranges, c):
    for first, last, base in ranges:
        if first <= c <= last:
            start = min(other[0] for other in ranges if other[2] == base)
            return [(False, base, 0x20, 2), (False, (c - start) | 0x8000, 0, 0)]
    base = 0xFB40 if is_core_ideograph(c) else 0xFB80 if is_other_ideograph(c) else 0xFBC0
    return [(False, base + (c >> 15), 0x20, 2), (False, (c & 0x7FFF) | 0x8000, 0, 0)]


def elements_of_unit(table, unit):
    rows, ranges = table
    key = code_points(unit)
    return rows[key] if key in rows else implicit_pair(ranges, key[0])


def weighted(elements, is_shifted):
    weights, after_variable = [], False
    for is_variable, *element in elements:
        if is_shifted and is_variable:
            after_variable = True
            weights.append([0, 0, 0])
        elif is_shifted and element[0] == 0 and after_variable:
            weights.append([0, 0, 0])
        else:
            weights.append(element)
            if element[0]:
                after_variable = False
    return weights


def weights_of(table, is_shifted, characters):
    found = units(table[0], points_of(characters))
    return weighted([e for unit in found for e in elements_of_unit(table, unit)], is_shifted)


def sort_key(table, strength, is_shifted, characters):
    weights = weights_of(table, is_shifted, characters)
    return [[element[level] for element in weights if element[level]] for level in range(strength)]


# ---- matches


def begins_cluster(table, unit):
    _, combining, _, is_first = unit[0]
    return is_first and combining == 0 and elements_of_unit(table, unit)[0][1] > 0


def boundaries(table, characters, length):
    found = units(table[0], points_of(characters))
    return sorted({0, length} | {unit[0][2] for unit in found if begins_cluster(table, unit)})


def part(characters, start, end):
    return [(c, offset - start) for c, offset in characters if start <= offset < end]


def matches(table, strength, is_shifted, key, characters, length):
    places = boundaries(table, characters, length)
    keys = {}

    def key_between(start, end):
        """The sort key of a part, made once for all parts of the same code points."""
        text = part(characters, start, end)
        alone = tuple(c for c, _ in text)
        if alone not in keys:
            keys[alone] = sort_key(table, strength, is_shifted, text)
        return keys[alone]

    ranges = [(start, end) for start in places for end in places if start <= end and key_between(start, end) == key]
    return [r for r in ranges if not any(o != r and r[0] <= o[0] and o[1] <= r[1] for o in ranges)]


def chain(ranges):
    """The first range, and then each that begins at or after the end of the last one taken."""
    taken = []
    for start, end in ranges:
        if not taken or taken[-1][1] <= start:
            taken.append((start, end))
    return taken


# ---- a text from its beginning


def keys(table, strength, is_shifted, characters):
    """The weights, up to the strength, of the elements that have some."""
    cut = (weights[:strength] for weights in weights_of(table, is_shifted, characters))
    return [weights for weights in cut if any(weights)]


class Front:
    """What stands before the first fault of a text, beside a pattern."""

    def __init__(self, table, strength, is_shifted, pattern, data):
        self.settings = table, strength, is_shifted
        self.key = sort_key(*self.settings, good_front(pattern)[0])
        self.characters, self.fault = good_front(data)
        self.length = sum(len(chr(c).encode()) for c, _ in self.characters)
        wanted, found = keys(*self.settings, good_front(pattern)[0]), keys(*self.settings, self.characters)
        self.is_begun = wanted[: len(found)] == found

    def is_equal(self, end):
        return sort_key(*self.settings, part(self.characters, 0, end)) == self.key

    def equal(self):
        """Whether all of it is a match, or the fault where that would decide."""
        return None if self.fault and self.is_begun else self.is_equal(self.length)

    def begins(self):
        """Whether there is an answer, and the least end of a match that begins at 0."""
        ends = (end for end in boundaries(self.settings[0], self.characters, self.length) if self.is_equal(end))
        end = next(ends, None)
        is_told = not self.fault or not self.is_begun or end is not None and end < self.length
        return is_told, end


# ---- safe offsets


class SafeOffsets:
    """Where a search may begin under a table, whatever stands before."""

    def __init__(self, table):
        rows, self.ranges = table
        self.mapped = {key[0] for key in rows if len(key) == 1}
        self.behind_first = {code_point for key in rows for code_point in key[1:]}
        self.without_primary = {key[0] for key, row in rows.items() if not row[0][1]}

    def is_safe_code_point(self, code_point):
        has_primary = code_point in self.mapped or implicit_pair(self.ranges, code_point)[0][1] > 0
        return has_primary and code_point not in self.behind_first | self.without_primary

    def of(self, data):
        """The safe offsets of bytes."""
        for at in range(len(data)):
            for length in range(1, 5):
                with contextlib.suppress(UnicodeDecodeError):
                    first = decomposition(ord(data[at : at + length].decode()))[0]
                    if not combining_class(first) and self.is_safe_code_point(first):
                        yield at
                    break


# ---- a text from its end


def said_up_to(at, ranges, fault):
    """What is said up to an offset: a fault that stands before it, or else the last range that ends there or before it, or None."""
    if fault and fault[1] < at:
        return "fault", *fault
    return next((found for found in reversed(ranges) if found[1] <= at), None)


class Back:
    """What one meets first who goes back through a text, beside a pattern: from each place the rest is searched as a text by itself."""

    def __init__(self, table, strength, is_shifted, pattern, data, places):
        self.settings, self.pattern, self.data = (table, strength, is_shifted), pattern, data
        self.places = sorted({0, *places}, reverse=True)
        self.rest = functools.cache(self.rest)

    def rest(self, place):
        """The ranges and the fault of what stands from a place on, counted from the beginning of the text."""
        ranges, fault = answer(*self.settings, False, self.pattern, self.data[place:])
        return [(place + start, place + end) for start, end in ranges], fault and (fault[0], place + fault[1])

    def last_before(self, at):
        said = (said_up_to(at, *self.rest(place)) for place in self.places if place < at or not place)
        return next(filter(None, said), None)

    def ends(self, more):
        """The match with the greatest start, minimal or not, that ends where the text ends, or None; or the last fault, where what stands
        behind it has no more keys than the pattern. From a place on `more` says how many keys the text has beside those here."""
        fault = next(filter(None, (self.rest(place)[1] for place in self.places)), None)
        first = min((place for place in self.places if not fault or fault[1] < place), default=None)
        if first is None:
            return "fault", *fault
        characters, length = good_front(self.data[first:])[0], len(self.data) - first
        key = sort_key(*self.settings, good_front(self.pattern)[0])
        starts = [start for start in boundaries(self.settings[0], characters, length)
                  if sort_key(*self.settings, part(characters, start, length)) == key]
        if starts:
            return first + starts[-1], len(self.data)
        wanted, found = (len(keys(*self.settings, good_front(data)[0])) for data in (self.pattern, self.data[first:]))
        return ("fault", *fault) if fault and found + more(first) <= wanted else None


def pattern_fault(table, strength, is_shifted, pattern):
    if len(pattern) > MOST_PATTERN_BYTES:
        return 21
    characters, fault = good_front(pattern)
    if fault:
        return 23
    if not any(sort_key(table, strength, is_shifted, characters)):
        return 22
    return None


def lines_of(ranges, output):
    if output == "count":
        return f"{len(ranges)}\n"
    if output == "marks":
        return "".join(f"[{start}\n]{end}\n" for start, end in ranges)
    return "".join(f"{start}:{end}\n" for start, end in ranges)


def fault_line(kind, place):
    return 2, "", f"colfind: fault {kind} at {place}\n"


def answer(table, strength, is_shifted, is_chain, pattern, data):
    """The ranges that are handed out, and the first fault of the text as its kind and offset."""
    key = sort_key(table, strength, is_shifted, good_front(pattern)[0])
    characters, fault = good_front(data)
    length = sum(len(chr(c).encode()) for c, _ in characters)
    found = matches(table, strength, is_shifted, key, characters, length)
    if fault:
        found = [r for r in found if r[1] < length]
    return chain(found) if is_chain else found, fault


def printed(found, fault, output):
    """The status, and what goes to standard output and standard error, where these ranges are handed out, and this is the fault."""
    lines = lines_of(found, output)
    if fault:
        return 2, lines, fault_line(*fault)[2]
    return (0 if found else 1), lines, ""


# ---- table files: a line is None where it is malformed, ("range", first, last, base) or ("entry", key, row)


def is_follower(e):
    return not e[0] and e[1] >= 0x8000 and e[2] == e[3] == 0


def is_lead(e):
    return not e[0] and 0xFB00 <= e[1] <= 0xFBFF and not is_follower(e)


def breaks_pairs(row):
    place = 0
    while place < len(row):
        element = row[place]
        if is_follower(element) or (element[0] and element[1] >= 0xFB00):
            return True
        if is_lead(element):
            place += 1
            if place == len(row) or not is_follower(row[place]):
                return True
        place += 1
    return False


def range_kinds(ranges, first, last, base):
    with_base = [r for r in ranges if r[2] == base] + [(first, last, base)]
    spread = max(r[1] for r in with_base) - min(r[0] for r in with_base)
    overlaps = any(first <= r[1] and r[0] <= last for r in ranges)
    if last > 0x10FFFF or first > 0x10FFFF:
        yield 2
    if first > last or not 0xFB00 <= base <= 0xFB3F or overlaps or spread > 0x7FFF:
        yield 11


def entry_kinds(rows, key, row):
    if any(c > 0x10FFFF for c in key):
        yield 2
    if key in rows:
        yield 3
    if len(key) > MOST_KEY_POINTS or len(row) > MOST_ROW_ELEMENTS:
        yield 4
    if any(not is_follower(e) and ((e[1] and not e[2]) or (e[2] and not e[3])) for e in row):
        yield 5
    if any(e[0] and e[1] == 0 for e in row):
        yield 7
    if breaks_pairs(row):
        yield 10


def class_in_key(c):
    return combining_class(c) if decomposition(c) == [c] else 0


def whole_table_kind(rows):
    elements = [e for row in rows.values() for e in row if not is_follower(e)]
    primaries = [e for e in elements if e[1]]
    secondaries = [e for e in elements if not e[1] and e[2]]
    tertiaries = [e for e in elements if not e[1] and not e[2] and e[3]]
    second = max([0x20] + [e[2] for e in primaries])
    third = max([2] + [e[3] for e in primaries + secondaries])
    variable = [e[1] for e in primaries if e[0]]
    if not rows:
        return 12
    if any(e[2] <= second for e in secondaries) or any(e[3] <= third for e in tertiaries):
        return 6
    if variable and any(not e[0] and min(variable) <= e[1] <= max(variable) for e in primaries):
        return 8
    if any(len(key) > 2 and class_in_key(key[-1]) and key[:-1] not in rows for key in rows):
        return 9
    return None


def take_lines(lines, ranges):
    """The rows of a file, and its first fault as its kind and line; its ranges are put behind those of an earlier file."""
    rows = {}
    for number, line in enumerate(lines, 1):
        if line is None:
            return rows, (1, number)
        kinds = range_kinds(ranges, *line[1:]) if line[0] == "range" else entry_kinds(rows, *line[1:])
        kind = min(kinds, default=None)
        if kind:
            return rows, (kind, number)
        if line[0] == "range":
            ranges.append(line[1:])
        else:
            rows[line[1]] = line[2]
    return rows, None


def table_of(lines, tailor=()):
    """The rows and ranges of a file and its tailor, and the first fault as its kind and line."""
    ranges = []
    rows, fault = take_lines(lines, ranges)
    if fault:
        return (rows, ranges), fault
    others, fault = take_lines(tailor, ranges)
    rows = {**rows, **others}
    if fault:
        return (rows, ranges), (fault[0] + 60, fault[1])
    kind = whole_table_kind(rows)
    return (rows, ranges), (kind, 0) if kind else None
