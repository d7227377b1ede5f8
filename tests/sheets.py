"""Sheets in the making: lines, rows and whole sheets, by the letters and fields of the second reading (tests/second_reading)."""
from second_reading import FIELDS, NAME, REFERENCE, ROWS

NOTHING = (None, None, None)


def row(letter, **values):
    """A row with these fields; any other is 0 where it is needed, and else missing."""
    left = {form.name: None if form.may_be_missing else 0 for form in FIELDS[letter]}
    return ROWS[letter](**{**left, **values})


def line(letter, values):
    """The line of a row. A field is a number, missing (None), or text that is to stand there as it is."""
    fields = ["-" if value is None else str(value) for value in values]
    text = letter + "".join(field.rjust(form.columns) for field, form in zip(fields, FIELDS[letter])) + "\n"
    return text.encode("latin-1")


def reference(word, three):
    """The fields of a reference (package, type, implementation), by their names."""
    return {word + part: value for part, value in zip(REFERENCE, three)}


class Sheet:
    """Names are given as text; each gets one N row."""

    def __init__(self):
        self.names = []
        self.rows = {letter: [] for letter in FIELDS}

    def name(self, text):
        if text not in self.names:
            self.names.append(text)
        return self.names.index(text)

    def add(self, letter, **values):
        """Adds a row with these fields, those that hold a name given as text. Hands back which row it is."""
        for form in FIELDS[letter]:
            if form.holds == NAME and isinstance(values.get(form.name), str):
                values[form.name] = self.name(values[form.name])
        self.rows[letter].append(row(letter, **values))
        return len(self.rows[letter]) - 1

    def component(self, name, parent=None, index=None, pattern=None, package="p", type_name="t", place=None):
        """Its place is behind all its siblings so far, where none is given."""
        if place is None:
            place = max((other.place + 1 for other in self.rows["C"] if other.parent == parent), default=0)
        return self.add("C", name=name, parent=parent, array_index=index, package=package, type=type_name, pattern=pattern, place=place)

    def feature(self, name, owner, kind=8):
        return self.add("F", name=name, owner=owner, kind=kind)

    def connection(self, name, owner, kind, source_subcomponent, source_feature, destination_subcomponent, destination_feature):
        return self.add("X", name=name, owner=owner, kind=kind, source_subcomponent=source_subcomponent, source_feature=source_feature,
                        destination_subcomponent=destination_subcomponent, destination_feature=destination_feature)

    def package(self, name):
        return self.add("P", name=name)

    def type(self, package, name, private=0):
        return self.add("T", package=package, name=name, private=private)

    def group_type(self, package, name, private=0, extends=NOTHING, inverse_of=NOTHING):
        return self.add("U", package=package, name=name, private=private, **reference("extends", extends), **reference("inverse", inverse_of))

    def declared(self, holder_kind, holder, name, kind=0, direction=None, classifier=NOTHING):
        return self.add("E", holder_kind=holder_kind, holder=holder, name=name, kind=kind, direction=direction, **reference("classifier", classifier))

    def rename(self, package, what, alias, original_package, original_name=None):
        return self.add("R", package=package, what=what, alias=alias, original_package=original_package, original_name=original_name)

    def mode(self, name, owner, initial=0):
        return self.add("M", name=name, owner=owner, initial=initial)

    def bytes(self):
        lines = [b"N %s\n" % name.encode("latin-1") for name in self.names]
        lines += [line(letter, values) for letter, rows in self.rows.items() for values in rows]
        return b"".join(lines)
