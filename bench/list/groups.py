#!/usr/bin/env python3
"""Writes sheets on which the group listing has the most to do, within what conlist lends: groups.py FOLDER

A heavy group has 65,536 visits, the most that are not refused, and hundreds of thousands of features. Names are 12 bytes long and differ in
the last two only."""
import os
import sys

ROWS, NAMES, BYTES = 96, 256, 16384

# The columns that a field of a letter takes where they are not six: the array index of C.
COLUMNS = {("C", 2): 20}


class Sheet:
    def __init__(self):
        self.names, self.rows = [], {letter: [] for letter in "CFXPITQUER"}

    def name(self):
        digits = "0123456789abcdefghijklmnopqrstuvwxyz"
        k = len(self.names)
        self.names.append("n" * 10 + digits[k // 36] + digits[k % 36])
        return k

    def row(self, letter, *fields):
        self.rows[letter].append(fields)
        return len(self.rows[letter]) - 1

    def line(self, letter, row):
        fields = ["-" if field is None else str(field) for field in row]
        return letter + "".join(field.rjust(COLUMNS.get((letter, k), 6)) for k, field in enumerate(fields))

    def text(self):
        lines = ["N " + name for name in self.names]
        for letter, rows in self.rows.items():
            lines += [self.line(letter, row) for row in rows]
        text = "".join(line + "\n" for line in lines)
        assert len(text) <= BYTES and len(self.names) <= NAMES, (len(text), len(self.names))
        assert all(len(rows) <= ROWS for rows in self.rows.values()), {k: len(v) for k, v in self.rows.items()}
        return text


class Model(Sheet):
    """A component of a type in a package, whose features are groups."""

    def __init__(self):
        super().__init__()
        self.package = self.name()
        self.component_type = self.name()
        self.row("C", self.name(), None, None, self.package, self.component_type, None, 0)
        self.row("P", self.package)
        self.row("T", 0, self.component_type, 0)
        self.nest = self.name()

    def group_type(self, extends=None):
        name = self.name()
        return self.row("U", 0, name, 0, None, extends, None, None, None, None), name

    def nested(self, holder, type_name):
        self.row("E", 1, holder, self.nest, 8, None, None, type_name, None)

    def feature(self, holder, name):
        self.row("E", 1, holder, name, 0, 0, None, None, None)

    def tree(self, features, first=3):
        """4^7 leaves for each of the first: for 3 of them 65,536 visits."""
        types = [self.group_type() for _ in range(9)]
        for level in range(8):
            for _ in range(first if level == 0 else 4):
                self.nested(types[level][0], types[level + 1][1])
        for feature in features:
            self.feature(types[8][0], feature)
        return types[0][1]

    def flat(self, features):
        row, name = self.group_type()
        for feature in features:
            self.feature(row, feature)
        return name

    def end(self, type_name):
        """A feature of the component that is a group."""
        name = self.name()
        self.row("F", name, 0, 8)
        self.row("E", 0, 0, name, 8, None, None, type_name, None)
        return name

    def connections(self, ends, count):
        name = self.name()
        for k in range(count):
            source, destination = ends[k % len(ends)]
            self.row("X", name, 0, 2, None, source, None, destination)


def disjoint():
    """Heavy groups on both sides, no name in common, in every connection."""
    m = Model()
    s = m.tree([m.name() for _ in range(15)])
    d = m.tree([m.name() for _ in range(15)])
    m.connections([(m.end(s), m.end(d))], 96)
    return m


def one_sided():
    """A heavy source with many features, a flat destination with other names."""
    m = Model()
    s = m.tree([m.name() for _ in range(31)])
    d = m.flat([m.name() for _ in range(31)])
    m.connections([(m.end(s), m.end(d))], 96)
    return m


def turn_about():
    """The ends of the first, to and fro: no two connections in a row have an end in common on the same side."""
    m = Model()
    s = m.end(m.tree([m.name() for _ in range(15)]))
    d = m.end(m.tree([m.name() for _ in range(15)]))
    m.connections([(s, d), (d, s)], 96)
    return m


def one_match():
    """A heavy source and a heavy destination with one name in common, of a feature that comes once, last."""
    m = Model()
    last = m.name()
    s = m.tree([m.name() for _ in range(14)])
    d = m.tree([m.name() for _ in range(14)])
    m.feature(0, last)
    m.feature(9, last)
    m.connections([(m.end(s), m.end(d))], 60)
    return m


def equal():
    """The same heavy group on both sides: more rows than there is room for."""
    m = Model()
    e = m.end(m.tree([m.name() for _ in range(60)]))
    m.connections([(e, e)], 96)
    return m


def many_ends():
    """Every connection has a heavy group of its own: types that extend the same tree."""
    m = Model()
    s = m.tree([m.name() for _ in range(8)], first=2)
    d = m.flat([m.name() for _ in range(7)])
    to = m.end(d)
    ends = []
    for _ in range(48):
        _, name = m.group_type(extends=s)
        ends.append((m.end(name), to))
    m.connections(ends, 96)
    return m


def doubled():
    """A group nested in itself three times: 265,720 visits, refused."""
    m = Model()
    row, name = m.group_type()
    for _ in range(3):
        m.nested(row, name)
    e = m.end(name)
    m.connections([(e, e)], 96)
    return m


def main():
    folder = sys.argv[1]
    os.makedirs(folder, exist_ok=True)
    for make in (disjoint, one_sided, turn_about, one_match, equal, many_ends, doubled):
        with open(os.path.join(folder, make.__name__ + ".sheet"), "w") as out:
            out.write(make().text())


if __name__ == "__main__":
    main()
