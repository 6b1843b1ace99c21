"""The words of a saved search once more, in Python, from the definition of a state in words and from model.py: what a search holds
after some bytes of a text, computed from all of these bytes anew. See random_states.py."""

import functools
import itertools

import model

FORM_OF_ALL, FORM_OF_CHAIN = 1, 2


@functools.cache
def may_go_on(tail):
    """Whether these bytes are the beginning of a character that more bytes end."""
    if not 1 <= len(tail) <= 3:
        return False
    for length in range(1, 4):
        for more in itertools.product(b"\x80\x90\xa0\xbf", repeat=length):
            try:
                if len((tail + bytes(more)).decode("utf-8")) == 1:
                    return True
            except UnicodeDecodeError:
                pass
    return False


def taken_so_far(data):
    """The whole characters of the bytes, the bytes that are held after them, and the fault that no more bytes mend."""
    characters, fault = model.good_front(data)
    if fault and fault[0] == 31 and may_go_on(data[fault[1] :]):
        return characters, data[fault[1] :], None
    return characters, b"", fault


def split_waiting(points):
    """The points that no later character can change or come before, and those that wait: the non-starters at the end."""
    place = len(points)
    while place and points[place - 1][1]:
        place -= 1
    return points[:place], points[place:]


def cut_units(rows, points):
    """The units that no later point can change, and the points that stay in the window."""
    found, rest = [], points
    while len(rest) >= model.longest_string(rows):
        if all(combining for _, combining, _, _ in rest[model.prefix_length(rows, rest) :]):
            break
        unit, rest = model.first_unit(rows, rest)
        found.append(unit)
    return found, rest


# ---- keys


def keys_of_row(strength, row, weights):
    """The keys of a row, whose elements have these weights under variable weighting: a lead and its follower are one key."""
    keys, place = [], 0
    while place < len(row):
        levels = tuple(weights[place][:strength])
        if model.is_lead(row[place]) and place + 1 < len(row) and model.is_follower(row[place + 1]):
            keys.append((levels, row[place + 1][1]))
            place += 1
        elif any(levels):
            keys.append((levels, None))
        place += 1
    return keys


def keys_of_units(table, strength, is_shifted, units):
    """The keys of each unit."""
    rows = [model.elements_of_unit(table, unit) for unit in units]
    weights = iter(model.weighted([element for row in rows for element in row], is_shifted))
    return [keys_of_row(strength, row, list(itertools.islice(weights, len(row)))) for row in rows]


def keys_of_text(table, strength, is_shifted, text):
    units = model.units(table[0], model.points_of(model.good_front(text)[0]))
    return [key for keys in keys_of_units(table, strength, is_shifted, units) for key in keys]


def is_after_variable(table, is_shifted, units):
    """Whether the last element that was variable or primary was variable, under shifted weighting."""
    elements = [element for unit in units for element in model.elements_of_unit(table, unit)]
    return is_shifted and next((e[0] for e in reversed(elements) if e[0] or e[1]), False)


# ---- states


class State:
    """What a search holds after some bytes."""

    def __init__(self, table, strength, is_shifted, pattern_keys, data):
        self.table, self.strength, self.is_shifted, self.pattern_keys = table, strength, is_shifted, pattern_keys
        self.taken = len(data)
        self.characters, self.held, self.fault = taken_so_far(data)
        if self.fault is None:
            given, self.waiting = split_waiting(model.points_of(self.characters))
            units, self.window = cut_units(table[0], given)
            self.after_variable = is_after_variable(table, is_shifted, units)
            self.walk(units)

    def walk(self, units):
        """The current cluster, and where the keys stand that begin the pattern and end the keys so far."""
        self.start, self.has_keys, keys, places = 0, False, [], []
        for unit, of_unit in zip(units, keys_of_units(self.table, self.strength, self.is_shifted, units)):
            if model.begins_cluster(self.table, unit) and unit[0][2] > 0:
                self.start, self.has_keys = unit[0][2], False
            for key in of_unit:
                keys.append(key)
                places.append((self.start, not self.has_keys))
                self.has_keys = True
        lengths = range(min(len(keys), len(self.pattern_keys)), 0, -1)
        length = next((n for n in lengths if keys[-n:] == self.pattern_keys[:n]), 0)
        self.places = places[len(places) - length :]
        is_whole = length == len(self.pattern_keys)
        self.match_waits = self.has_keys and is_whole and self.places[0][1]

    def handed_out(self, ranges):
        """Those of the ranges of the whole text that are handed out by now."""
        return ranges if self.fault else [r for r in ranges if r[1] <= self.start]

    def words(self, is_chain, ranges):
        """The words; `ranges` are those of the whole text that are handed out in the end."""
        rows = self.table[0]
        form = FORM_OF_CHAIN if is_chain else FORM_OF_ALL
        words = [form, len(self.pattern_keys), model.longest_string(rows), max(2, model.longest_row(rows))]
        words += [self.strength, int(self.is_shifted)]
        if self.fault:
            kind, offset = self.fault
            return words + [offset, kind, offset] + [0] * (15 if is_chain else 11)
        words += [self.taken, 0]
        words += [0, len(self.held), int.from_bytes(self.held, "big"), int(self.after_variable)]
        words += [self.start, int(self.has_keys), int(self.match_waits), len(self.places)]
        words += [len(self.window), len(self.waiting), 0, 0]
        if is_chain:
            handed = self.handed_out(ranges)
            words += [handed[-1][1] if handed else 0, 0, 0, 0]
        for start, is_first in self.places:
            words += [start, int(is_first), 0, 0]
        for code_point, _, offset, is_first in self.window + self.waiting:
            words += [code_point, offset, int(is_first), 0]
        return words


def most_records(table, pattern_keys, is_chain):
    """The most records of four words that a state has."""
    return len(pattern_keys) + model.longest_string(table[0]) + (36 if is_chain else 35)
