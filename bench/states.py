"""The state file of docs/formats.md once more, in Python: the objects that it names, or the kind of its fault."""

import json
import math
import re

MOST_NAME = 1_024
MOST_OPEN = 127
HEX = re.compile("(?:[0-9a-f]{2})*")


class StateFault(Exception):
    """Its kind."""


class Pairs(list):
    """The members of a JSON object, also those that are overwritten."""


class Broken(float):
    """A number that isn't whole, or beyond an i64."""


def whole(digits):
    if math.isinf(float(digits)):
        raise ValueError
    if digits == "-0" or len(digits) > 20 or not -(2**63) <= int(digits) < 2**63:
        return Broken(digits)
    return int(digits)


def broken(digits):
    number = Broken(digits)
    if math.isinf(number):
        raise ValueError
    return number


def refused(name):
    raise ValueError


def is_well_formed(tree, room=MOST_OPEN):
    """Whether there is room for all nestings, and each string stands for UTF-8 bytes."""
    if isinstance(tree, str):
        return not any("\ud800" <= letter <= "\udfff" for letter in tree)
    if isinstance(tree, list):
        return room > 0 and all(is_well_formed(inner, room - 1) for inner in tree)
    return not isinstance(tree, tuple) or all(is_well_formed(inner, room) for inner in tree)


def json_of(data):
    """The tree of a JSON text, or a fault of kind 1."""
    try:
        tree = json.loads(
            data.decode(), object_pairs_hook=Pairs, parse_int=whole, parse_float=broken, parse_constant=refused
        )
        if is_well_formed(tree):
            return tree
    except (ValueError, RecursionError):
        pass
    raise StateFault(1)


class Reader:
    """Reads a state into objects and gathers the kinds of its faults."""

    def __init__(self, program, objects, make_list, is_within_limits):
        self.program, self.objects = program, objects
        self.make_list, self.is_within_limits = make_list, is_within_limits
        self.kinds = set()

    def unless(self, holds, kind):
        if not holds:
            self.kinds.add(kind)
        return holds

    def is_array(self, tree):
        return self.unless(isinstance(tree, list) and not isinstance(tree, Pairs), 2)

    def is_object(self, tree):
        return self.unless(isinstance(tree, Pairs), 2)

    def is_text(self, tree):
        if isinstance(tree, str):
            return True
        members = dict(tree) if isinstance(tree, Pairs) else {}
        return list(members) == ["hex"] and isinstance(members["hex"], str) and bool(HEX.fullmatch(members["hex"]))

    def text(self, tree):
        return tree.encode() if isinstance(tree, str) else bytes.fromhex(dict(tree)["hex"])

    def any_value(self, tree):
        if self.is_text(tree):
            return self.text(tree)
        if isinstance(tree, list) and not isinstance(tree, Pairs):
            return self.make_list(tuple(self.any_value(inner) for inner in tree))
        self.unless(tree is None or isinstance(tree, int), 2)
        return tree

    def value(self, tree):
        value = self.any_value(tree)
        self.unless(self.is_within_limits(value), 4)
        return value

    def name(self, name):
        self.unless(len(name) <= MOST_NAME, 4)
        return name

    def cells(self, tree, cells):
        """Pairs of a name and a value."""
        for pair in tree if self.is_array(tree) else []:
            if self.is_array(pair) and self.unless(len(pair) == 2, 2):
                value = self.value(pair[1])
                if self.unless(self.is_text(pair[0]), 2):
                    name = self.name(self.text(pair[0]))
                    self.unless(name not in cells, 5)
                    cells[name] = value

    def rows(self, tree, rows, width):
        for row in tree if self.is_array(tree) else []:
            if self.is_array(row):
                values = [self.value(part) for part in row]
                self.unless(len(values) == width, 5)
                if self.unless(values and isinstance(values[0], bytes), 5):
                    self.unless(self.name(values[0]) not in rows, 5)
                    rows[values[0]] = values

    def registers(self, tree):
        self.cells(tree, self.objects.registers)

    def stores(self, tree):
        for name, cells in dict(tree).items() if self.is_object(tree) else []:
            self.unless(name.encode() in self.objects.stores, 3)
            self.cells(cells, self.objects.stores.get(name.encode(), {}))

    def tables(self, tree):
        for name, rows in dict(tree).items() if self.is_object(tree) else []:
            self.unless(name.encode() in self.objects.tables, 3)
            columns = self.program.tables.get(name.encode(), [])
            self.rows(rows, self.objects.tables.get(name.encode(), {}), len(columns))

    def clock(self, tree):
        if self.unless(isinstance(tree, int) and not isinstance(tree, bool), 2):
            self.unless(tree >= 0, 4)
            self.objects.clock = tree

    def state(self, tree):
        for name, part in dict(tree).items() if self.is_object(tree) else []:
            if self.unless(name in ("registers", "stores", "tables", "clock"), 2):
                getattr(self, name)(part)


def objects_of(data, program, objects, make_list, is_within_limits):
    """The objects of a state file, made of empty ones."""
    reader = Reader(program, objects, make_list, is_within_limits)
    reader.state(json_of(data))
    if reader.kinds:
        raise StateFault(min(reader.kinds))
    return objects
