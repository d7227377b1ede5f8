"""The sheets written by hand: the trial rows of document 01, single points of its rules and of the changes of them (document 02),
and where the Rust goes another way than AS5506 or document 01. Each is as small as it can be."""

from second_reading import CONLIST_LINES, FIELDS, LARGEST_LONG, LETTERS, Refusal, Selection
from sheets import NOTHING, Sheet


def one_group(classifier):
    """One component; both ends of its connection c are its feature group g, of this classifier."""
    sheet = Sheet()
    sheet.component("root")
    sheet.feature("g", 0)
    sheet.connection("c", 0, 2, None, "g", None, "g")
    sheet.package("p")
    sheet.type(0, "t")
    sheet.declared(0, 0, "g", 8, None, classifier)
    return sheet


def run():
    """The run of document 01, name by name."""
    sheet = Sheet()
    for name in ("hub", "pit", "mot", "cmd", "set", "c1", "c2", "p", "t", "reg"):
        sheet.name(name)
    sheet.component("hub", place=0)
    sheet.component("pit", 0, place=0)
    sheet.component("mot", 0, place=1)
    sheet.component("reg", 1, place=0)
    sheet.connection("c1", 0, 0, "pit", "cmd", "mot", "set")
    sheet.connection("c2", 1, 0, "reg", "set", None, "cmd")
    return sheet


def arrays(pattern, sources, destinations, places=()):
    """Two arrays a and b of these sizes, under a pattern; their elements have these places, or are placed as they come."""
    sheet = Sheet()
    sheet.component("root", pattern=pattern)
    given = iter(places)
    for name, size in (("a", sources), ("b", destinations)):
        for element in range(1, size + 1):
            sheet.component("%s[%d]" % (name, element), 0, element, place=next(given, None))
    sheet.connection("c", 0, 0, "a", "f", "b", "f")
    return sheet


def one_end(places):
    """The elements of an array, with these places, wired to the root itself, and the root to them."""
    sheet = Sheet()
    sheet.component("root")
    for element, place in enumerate(places, 1):
        sheet.component("a[%d]" % element, 0, element, place=place)
    sheet.connection("up", 0, 0, "a", "f", None, "f")
    sheet.connection("down", 0, 0, None, "f", "a", "f")
    return sheet


def of_one_name(places):
    """Children with these places, all of the name that the connection wants."""
    sheet = Sheet()
    sheet.component("root")
    sheet.component("b", 0, place=100)
    for place in places:
        sheet.component("a", 0, place=place)
    sheet.connection("c", 0, 0, "a", "f", "b", "f")
    return sheet


def indexed(*indices):
    """Children with these array indices, found by the base name that the connection wants, but for those without an index."""
    sheet = Sheet()
    sheet.component("root")
    sheet.component("b", 0)
    for number, index in enumerate(indices):
        sheet.component("a[%d]" % number, 0, index)
    sheet.connection("c", 0, 0, "a", "f", "b", "f")
    return sheet


def fan(source_places, destination_places):
    """A wire from s to d; in each of the two an array m, of elements with these places, is one step further."""
    sheet = Sheet()
    sheet.component("root")
    sheet.component("s", 0)
    sheet.component("d", 0)
    for parent, places in ((1, source_places), (2, destination_places)):
        for element, place in enumerate(places, 1):
            sheet.component("m[%d]" % element, parent, element, place=place)
    sheet.connection("across", 0, 0, "s", "f", "d", "f")
    sheet.connection("up", 1, 0, "m", "g", None, "f")
    sheet.connection("down", 2, 0, None, "f", "m", "g")
    return sheet


def connections_before_places():
    """Two connections of s go on at its children a and b; b has the lower place, a's connection the lower row."""
    sheet = Sheet()
    sheet.component("root")
    sheet.component("s", 0)
    sheet.component("d", 0)
    sheet.component("a", 1, place=1)
    sheet.component("b", 1, place=0)
    sheet.connection("across", 0, 0, "s", "f", "d", "f")
    sheet.connection("from_a", 1, 0, "a", "f", None, "f")
    sheet.connection("from_b", 1, 0, "b", "f", None, "f")
    return sheet


def group_of_an_array(places, has):
    """A group connection from an array with these places to the root; of its elements, from 1, only that one has the group."""
    sheet = one_group((None, "u", None))
    sheet.rows["X"] = []
    for element, place in enumerate(places, 1):
        sheet.component("a[%d]" % element, 0, element, place=place)
    sheet.feature("g", has)
    sheet.connection("c", 0, 2, "a", "g", None, "g")
    group = sheet.group_type(0, "u")
    sheet.declared(1, group, "f")
    return sheet


def places_down_the_tree(*places):
    """A chain of components, each in the one before, with these places."""
    sheet = Sheet()
    for row, place in enumerate(places):
        sheet.component("c%d" % row, row - 1 if row else None, place=place)
    sheet.connection("c", 0, 0, "c1", "f", "c1", "f")
    return sheet


def tree(*parents_and_places):
    """The root, and behind it components with these parents and places."""
    sheet = Sheet()
    sheet.component("root")
    for parent, place in parents_and_places:
        sheet.component("c", parent, place=place)
    return sheet


def with_end_without_feature(sheet):
    """The sheet with a fault of 8 more."""
    sheet.connection("c", 0, 0, "c", None, None, "f")
    return sheet


def with_equal_packages(sheet):
    """The sheet with a fault of 9 more."""
    sheet.package("P")
    sheet.package("p")
    return sheet


def with_fields(sheet, component, **fields):
    """The sheet with these fields of a component as they are said here."""
    sheet.rows["C"][component] = sheet.rows["C"][component]._replace(**fields)
    return sheet


def lines_changed(sheet, change):
    """The bytes of a sheet, with the lines of components changed."""
    return b"".join(change(line) if line.startswith(b"C") else line for line in sheet.splitlines(keepends=True))


def without_places(sheet):
    """The sheet with components that lack their last field."""
    return lines_changed(sheet, lambda line: line[:-1 - FIELDS["C"][-1].columns] + b"\n")


def with_short_indices(sheet):
    """The sheet with array indices in six columns."""
    return lines_changed(sheet, lambda line: line[:13] + line[27:])


def pump():
    sheet = Sheet()
    sheet.component("root")
    sheet.component("pump", 0)
    sheet.component("pump[1]", 0, 1)
    sheet.component("b", 0)
    sheet.connection("c", 0, 0, "pump", "f", "b", "f")
    return sheet


def chain(steps, connections=1):
    """A chain of so many steps towards the source, each by so many equal connections."""
    sheet = Sheet()
    sheet.component("root")
    sheet.component("b", 0)
    current = sheet.component("s0", 0)
    sheet.connection("top", 0, 0, "s0", "f", "b", "f")
    for step in range(steps):
        child = "s%d" % (step + 1)
        inner = sheet.component(child, current)
        for _ in range(connections):
            sheet.connection("u%d" % step, current, 0, child, "f", None, "f")
        current = inner
    return sheet


def both_ways(sources, destinations):
    """A wire from a to a, and inside it one component in the other, with a chain of so many steps towards the source and of so many towards the destination."""
    sheet = Sheet()
    sheet.component("root")
    current = sheet.component("a", 0)
    sheet.connection("c", 0, 0, "a", "f", "a", "f")
    for step in range(max(sources, destinations)):
        inner = sheet.component("m", current)
        if step < sources:
            sheet.connection("up", current, 0, "m", "f", None, "f")
        if step < destinations:
            sheet.connection("down", current, 0, None, "f", "m", "f")
        current = inner
    return sheet


def chains_of_an_array(*steps):
    """An array wired to the root, and inside each of its elements a chain of so many steps."""
    sheet = Sheet()
    sheet.component("root")
    elements = [sheet.component("a[%d]" % index, 0, index) for index in range(1, len(steps) + 1)]
    sheet.connection("c", 0, 0, "a", "f", None, "f")
    for current, count in zip(elements, steps):
        for _ in range(count):
            inner = sheet.component("m", current)
            sheet.connection("up", current, 0, "m", "f", None, "f")
            current = inner
    return sheet


def unpaired_source_of_a_million_chains():
    """One to one leaves the second source unpaired, so nothing follows its 4 to the 10th chains."""
    sheet = arrays("one_to_one", 2, 1)
    current = 2
    for step in range(10):
        child = "s%d" % step
        inner = sheet.component(child, current)
        for _ in range(4):
            sheet.connection("u", current, 0, child, "f", None, "f")
        current = inner
    return sheet


def extensions(steps):
    """A feature so many extensions down."""
    sheet = one_group((None, "u0", None))
    for step in range(steps):
        sheet.group_type(0, "u%d" % step, 0, (None, "u%d" % (step + 1), None))
    last = sheet.group_type(0, "u%d" % steps)
    sheet.declared(1, last, "f")
    return sheet


def nested_in_itself(times, names="n%d"):
    sheet = one_group((None, "u", None))
    group = sheet.group_type(0, "u")
    for number in range(times):
        sheet.declared(1, group, names % number if "%" in names else names, 8, None, (None, "u", None))
    return sheet


def skipped_but_over_the_visits():
    """The source gives none, the destination is expanded all the same."""
    sheet = nested_in_itself(3)
    sheet.rows["X"] = []
    sheet.connection("c", 0, 2, None, "no_group", None, "g")
    return sheet


def package_without_a_row():
    """An empty expansion of one visit, which is not none."""
    sheet = one_group(("nowhere", "u", None))
    sheet.group_type(0, "u")
    return sheet


def alias_of_the_own_package():
    """The component's type is looked up in q: the alias is the package's own name."""
    sheet = one_group((None, "u", None))
    own = sheet.group_type(0, "u")
    sheet.declared(1, own, "f")
    other = sheet.package("q")
    other_type = sheet.type(other, "t")
    sheet.declared(0, other_type, "g", 8, None, (None, "u", None))
    other_group = sheet.group_type(other, "u")
    sheet.declared(1, other_group, "other")
    sheet.rename(0, 0, "p", "q")
    return sheet


def first_declared_group_lacks_a_classifier():
    sheet = one_group(NOTHING)
    sheet.declared(0, 0, "G", 8, None, (None, "u", None))
    group = sheet.group_type(0, "u")
    sheet.declared(1, group, "f")
    return sheet


def many_features_without_a_match():
    """4,095 visits and 92,115 features at each end, and no match."""
    sheet = Sheet()
    sheet.component("root")
    sheet.feature("g", 0)
    sheet.feature("h", 0)
    sheet.connection("c", 0, 2, None, "g", None, "h")
    sheet.package("p")
    sheet.type(0, "t")
    sheet.declared(0, 0, "g", 8, None, (None, "u", None))
    sheet.declared(0, 0, "h", 8, None, (None, "v", None))
    for name in ("u", "v"):
        group = sheet.group_type(0, name)
        for number in range(2):
            sheet.declared(1, group, "n%d" % number, 8, None, (None, name, None))
        for number in range(45):
            sheet.declared(1, group, "%sf%d" % (name, number))
    return sheet


def renamed_group(package, type_name):
    """The group is asked for by an alias of this group of this package."""
    sheet = one_group((None, "al", None))
    home = sheet.package(package)
    group = sheet.group_type(home, type_name)
    sheet.declared(1, group, "f")
    sheet.rename(0, 2, "al", package, type_name)
    return sheet


def renamed_group_finds_another():
    """There is no package a::b, but a package a with a group b::u."""
    sheet = one_group((None, "al", None))
    home = sheet.package("a")
    group = sheet.group_type(home, "b::u")
    sheet.declared(1, group, "other")
    sheet.rename(0, 2, "al", "a::b", "u")
    return sheet


def features_that_differ_in_case():
    """The connection inside a gives Set, the one of the root takes set."""
    sheet = Sheet()
    sheet.component("root")
    sheet.component("a", 0)
    sheet.component("b", 0)
    sheet.component("m", 1)
    sheet.connection("across", 0, 0, "a", "set", "b", "f")
    sheet.connection("up", 1, 0, "m", "f", None, "Set")
    return sheet


def wired(names, source, destination="b", pattern=None, wires=1):
    """Children of the root with these names, an index at those of elements, and so many wires between the ones that are wanted; None is the root itself."""
    sheet = Sheet()
    sheet.component("root", pattern=pattern)
    for name in names.split():
        sheet.component(name, 0, 1 if "[" in name else None)
    for _ in range(wires):
        sheet.connection("c", 0, 0, source, "f", destination, "f")
    return sheet


def with_names(sheet, *names):
    """The sheet with these names, which nothing in it has."""
    for name in names:
        sheet.name(name)
    return sheet


def one_step(side, *outer, wanted="m"):
    """A wire from a to b. Inside the one at this side, the child m, wanted by a name, has a connection to each of these outer features."""
    sheet = Sheet()
    sheet.component("root")
    inside = {"source": sheet.component("a", 0), "destination": sheet.component("b", 0)}[side]
    sheet.component("m", inside)
    sheet.connection("c", 0, 0, "a", "f", "b", "f")
    for feature in outer:
        ends = (wanted, "g", None, feature) if side == "source" else (None, feature, wanted, "g")
        sheet.connection("in", inside, 0, *ends)
    return sheet


def with_feature(sheet, connection, field, feature):
    """The sheet with this feature at an end of a connection."""
    sheet.rows["X"][connection] = sheet.rows["X"][connection]._replace(**{field: sheet.name(feature)})
    return sheet


def group_of_a_child(sheet, names, wanted, has):
    """A sheet with a group of the root, and a group connection to it from the one wanted of its children with these names. Those of these rows have the group."""
    sheet.rows["X"] = []
    for name in names.split():
        sheet.component(name, 0, 1 if "[" in name else None)
    for row in has:
        sheet.feature("g", row)
    sheet.connection("c", 0, 2, wanted, "g", None, "g")
    return sheet


def group_of_one_feature():
    sheet = one_group((None, "u", None))
    group = sheet.group_type(0, "u")
    sheet.declared(1, group, "f")
    return sheet


def printed(text):
    """A text as conlist prints it: here ` | ` stands between its lines, and a blank between their numbers, which take six columns."""
    lines = []
    for line in text.split(" | "):
        letter, *words = line.split(" ")
        lines.append(line if letter in "=<>!@" else letter + "".join(word.rjust(6) if word.isdigit() else " " + word for word in words))
    return "".join(line + "\n" for line in lines).encode("latin-1")


def wires(*rows):
    """The text of traced rows with these numbers, each from a feature f to a feature f by a connection c."""
    return printed(" | ".join(["S %s | = c | < f | > f" % row for row in rows] + ["Z %d 0" % len(rows)]))


def row(ends, *path):
    """The numbers of a traced row: the connection, its kind and the components at its ends, and behind them how long this path is, and the path."""
    return " ".join(map(str, (ends, len(path), *path)))


def chained(*rows):
    """The text of these traced rows of a `chain`."""
    return printed(" | ".join(["S %s | = top | < f | > f" % one for one in rows] + ["Z %d 0" % len(rows)]))


def private_group_of_another_package():
    sheet = one_group(("q", "u", None))
    other = sheet.package("q")
    group = sheet.group_type(other, "u", 1)
    sheet.declared(1, group, "f")
    return sheet


def visits(extensions, nested, more=0):
    """Group types that extend one another so many times, then hold so many nested groups at each level, and `more` in the first."""
    sheet = one_group((None, "u0", None))
    for level in range(extensions):
        sheet.group_type(0, "u%d" % level, 0, (None, "u%d" % (level + 1), None))
    for level, count in enumerate(nested, extensions):
        group = sheet.group_type(0, "u%d" % level)
        for _ in range(count):
            sheet.declared(1, group, "n", 8, None, (None, "u%d" % (level + 1), None))
    last = sheet.group_type(0, "u%d" % (extensions + len(nested)))
    for _ in range(more):
        sheet.declared(1, 0, "m", 8, None, (None, "u%d" % last, None))
    return sheet


def missing_ends(count):
    sheet = Sheet()
    sheet.component("root")
    for _ in range(count):
        sheet.connection("c", 0, 0, None, "f", None, None)
    return sheet


def unmatched_features(count):
    """The source's group has so many features, the destination's none."""
    sheet = one_group((None, "u", None))
    sheet.rows["X"] = []
    sheet.feature("h", 0)
    sheet.connection("c", 0, 2, None, "g", None, "h")
    sheet.declared(0, 0, "h", 8, None, (None, "v", None))
    source = sheet.group_type(0, "u")
    sheet.group_type(0, "v")
    for number in range(count):
        sheet.declared(1, source, "f%d" % number)
    return sheet


def padded(stem, length):
    return stem + "y" * (length - len(stem))


def spread(total, parts):
    """So many lengths that are this together, and differ by one at most."""
    return [total // parts + (1 if part < total % parts else 0) for part in range(parts)]


def group_features(lengths, connection="c"):
    """A group with a feature of each of these lengths, at both ends of a connection."""
    sheet = one_group((None, "u", None))
    sheet.rows["X"] = []
    sheet.connection(connection, 0, 2, None, "g", None, "g")
    group = sheet.group_type(0, "u")
    for number, length in enumerate(lengths):
        sheet.declared(1, group, padded("f%d" % number, length))
    return sheet


def rows_then_over_the_visits(rows):
    """So many group rows of the first connection; the second connection's ends have 265,720 visits each."""
    sheet = group_features([3] * rows)
    sheet.feature("h", 0)
    sheet.connection("d", 0, 2, None, "h", None, "h")
    sheet.declared(0, 0, "h", 8, None, (None, "w", None))
    group = sheet.group_type(0, "w")
    for number in range(3):
        sheet.declared(1, group, "n%d" % number, 8, None, (None, "w", None))
    return sheet


def rows_and_diagnostics(matched, unmatched):
    """So many features of the source have a partner, so many have none; the connection stands five times."""
    sheet = one_group((None, "u", None))
    sheet.rows["X"] = []
    sheet.feature("h", 0)
    for _ in range(5):
        sheet.connection("c", 0, 2, None, "g", None, "h")
    sheet.declared(0, 0, "h", 8, None, (None, "v", None))
    source = sheet.group_type(0, "u")
    destination = sheet.group_type(0, "v")
    for number in range(unmatched):
        sheet.declared(1, source, "f%d" % number)
    for number in range(matched):
        sheet.declared(1, source, "m%d" % number)
        sheet.declared(1, destination, "m%d" % number)
    return sheet


def composed_bytes(rows, feature_bytes):
    """So many rows: connection "ccc" and group "g" take 8 bytes of each, the feature's name three times the rest."""
    return group_features(spread(feature_bytes, rows), "ccc")


def text_bytes(connection_bytes):
    """64 rows of 47 bytes, twice 30 bytes of feature, and connections with names of so many bytes; 14 bytes for the last line."""
    sheet = Sheet()
    sheet.component("root")
    sheet.component("b", 0)
    for row, length in enumerate(spread(connection_bytes, 64)):
        sheet.connection(padded("c%d" % row, length), 0, 0, "b", padded("f", 30), "b", padded("f", 30))
    return sheet


def full_of_children(places):
    """As many components as conlist lends, all but the root its children, with these places. Each tenth is wired to the root."""
    sheet = Sheet()
    sheet.component("root")
    for row, place in zip(range(1, CONLIST_LINES["C"]), places):
        sheet.component("a" if row % 10 == 0 else "y", 0, place=place)
    sheet.connection("c", 0, 0, "a", "f", None, "f")
    return sheet


def modes_of(owners, components=(), names=(), initials=()):
    """A mode of each of these owners, one row behind the other, with these names and initial flags, or else m0, m1 and so on and no initial one. Behind the
    root stand components with these parents and places, or else as many children of the root as the owners need."""
    sheet = Sheet()
    sheet.component("root")
    for parent, place in components or [(0, None)] * max(owners, default=0):
        sheet.component("c", parent, place=place)
    for number, owner in enumerate(owners):
        sheet.mode(names[number] if names else "m%d" % number, owner, initials[number] if initials else 0)
    return sheet


def modal(*counts):
    """So many modes of the root and of each of its children, those of one component in rows behind one another."""
    return modes_of([owner for owner, count in enumerate(counts) for _ in range(count)], [(0, None)] * (len(counts) - 1))


def joined_bytes(components, length):
    """One mode of each of so many components, whose names have this length when they are joined."""
    lengths = spread(length - (components - 1), components)
    return modes_of(range(components), names=[padded("m%d" % number, one) for number, one in enumerate(lengths)])


def longer_from_the_second():
    """The last of 65 components has two modes; with the first one the joined names have 4,096 bytes, with the other 4,097."""
    sheet = joined_bytes(65, 4096)
    sheet.mode(padded("z", len(sheet.names[-1]) + 1), 64)
    return sheet


def longer_and_cut():
    """One mode of each of 68 components and two of each of 14 more, all with names of 63 bytes."""
    owners = [*range(68), *(owner for owner in range(68, 82) for _ in range(2))]
    return modes_of(owners, names=[padded("m%d" % number, 63) for number in range(96)])


def modes_of_one_name_in_two_rows():
    """Two modes of one component, whose names are two N rows of the same bytes."""
    sheet = modes_of([0, 0], names=["on", "off"])
    sheet.names[-1] = "on"
    return sheet


def with_modes(sheet):
    """The sheet with two modes of its root, and three of the component behind it."""
    for name, owner in (("low", 0), ("high", 0), ("idle", 1), ("feather", 1), ("stop", 1)):
        sheet.mode(name, owner, 1 if name in ("low", "stop") else 0)
    return sheet


def modes_beside_visits():
    """The groups of a connection have too many visits, so that only its modes are listed."""
    sheet = nested_in_itself(3)
    sheet.component("c", 0)
    return with_modes(sheet)


def with_mode(sheet, **fields):
    """The sheet with one mode more, of the root but for these fields."""
    sheet.add("M", **fields)
    return sheet


def with_rename(sheet):
    """The sheet with a fault of 6 more, the original name of a rename."""
    sheet.package("p")
    sheet.add("R", what=1, original_name=99)
    return sheet


def mode_alone():
    """A mode, and no component that could have it."""
    sheet = Sheet()
    sheet.mode("m", 0)
    return sheet


def full_table(letter, more=0):
    """One group connection, and as many rows of this letter as conlist lends, or so many more."""
    sheet = group_features([2])
    add = {
        "N": lambda number: sheet.name("y%d" % number),
        "C": lambda number: sheet.component("y%d" % number, 0),
        "F": lambda number: sheet.feature("y", 0, 0),
        "X": lambda number: sheet.connection("c", 0, 0, None, "g", None, "g"),
        "P": lambda number: sheet.package("y%d" % number),
        "I": lambda number: sheet.add("I", package=0, name="p"),
        "T": lambda number: sheet.type(0, "y%d" % number),
        "Q": lambda number: sheet.add("Q", package=0, type="t", implementation="y%d" % number),
        "U": lambda number: sheet.group_type(0, "y%d" % number),
        "E": lambda number: sheet.declared(0, 0, "y"),
        "R": lambda number: sheet.rename(0, 0, "y%d" % number, "p"),
        "M": lambda number: sheet.mode("y%d" % number, 0, number % 2),
    }.get(letter, lambda number: sheet.add(letter))
    rows = sheet.names if letter == "N" else sheet.rows[letter]
    while len(rows) < CONLIST_LINES[letter] + more:
        add(len(rows))
    return sheet


# Label -> sheet. All are accepted, and the Rust answers all.
ACCEPTED = {
    "trial: run of document 01": run(),
    "trial: ((One_To_One))": arrays("((One_To_One))", 2, 2),
    "trial: (One_To_One, One_To_One)": arrays("(One_To_One, One_To_One)", 2, 2),
    "trial: one to one, 3 against 2": arrays("One_To_One", 3, 2),
    "trial: pump and pump[1]": pump(),
    "trial: a feature 10 extensions down": extensions(10),
    "trial: a feature 11 extensions down": extensions(11),
    "trial: nested in itself 2 times": nested_in_itself(2),
    "trial: nested in itself 3 times": nested_in_itself(3),
    "trial: chain of 19 steps": chain(19),
    "trial: chain of 20 steps": chain(20),
    "trial: chain of 21 steps": chain(21),
    "trial: chain of 22 steps": chain(22),
    "trial: chain of 23 steps": chain(23),
    "one to one, 0 against 2": arrays("one_to_one", 0, 2),
    "one to one, 0 against 0": arrays("one_to_one", 0, 0),
    "pattern with blanks inside": arrays("o n e_t o_o,n(e)", 2, 2),
    "pattern of three words": arrays("one to one", 2, 2),
    "a million chains of an unpaired source": unpaired_source_of_a_million_chains(),
    "skipped connection over the visits": skipped_but_over_the_visits(),
    "asking package without a P row": package_without_a_row(),
    "alias of the own package": alias_of_the_own_package(),
    "first declared group lacks a classifier": first_declared_group_lacks_a_classifier(),
    "64 traced rows": arrays(None, 8, 8),
    "65 traced rows": arrays(None, 13, 5),
    "64 traced diagnostics": missing_ends(64),
    "65 traced diagnostics": missing_ends(65),
    "65,536 visits": visits(0, (17, 47, 9, 8)),
    "65,537 visits": visits(0, (16, 15, 16, 16)),
    "65,536 visits, most past the depth": visits(6, (9, 20, 11, 8, 3)),
    "65,537 visits, most past the depth": visits(6, (9, 20, 11, 8, 3), 1),
    "64 group rows": group_features([3] * 64),
    "65 group rows": group_features([3] * 65),
    "65 group rows, then an end over the visits": rows_then_over_the_visits(65),
    "65 group rows and 65 group diagnostics": rows_and_diagnostics(13, 13),
    "60 group rows and 65 group diagnostics": rows_and_diagnostics(12, 13),
    "65 group rows and 60 group diagnostics": rows_and_diagnostics(13, 12),
    "4,096 composed bytes": composed_bytes(32, 1280),
    "4,097 composed bytes": composed_bytes(31, 1283),
    "64 group diagnostics, too long a text": unmatched_features(64),
    "65 group diagnostics": unmatched_features(65),
    "8,192 bytes of text": text_bytes(1330),
    "8,193 bytes of text": text_bytes(1331),
    **{"full table " + letter: full_table(letter) for letter in LETTERS},
    "all to all by place": arrays(None, 3, 2, (4, 1, 3, 2, 0)),
    "one to one by place": arrays("one_to_one", 3, 3, (2, 0, 1, 3, 4, 5)),
    "one to one by place, the same pairs": arrays("one_to_one", 3, 3, (5, 4, 3, 2, 1, 0)),
    "one to one by place, 3 against 2": arrays("one_to_one", 3, 2, (9, 4, 6, 5, 0)),
    "one to one by place, 1 against 3": arrays("one_to_one", 1, 3, (7, 9, 8, 3)),
    "one end at the root by place": one_end((1, 2, 0)),
    "children of one name by place": of_one_name((7, 3, 5)),
    "steps by place": fan((2, 0, 1), (5, 4)),
    "steps by place, one side": fan((1, 0), (0, 1)),
    "connections by row, then children by place": connections_before_places(),
    "first found child by place has the group": group_of_an_array((4, 6, 2), 3),
    "first found child by row has the group": group_of_an_array((4, 6, 2), 1),
    "root's place is its child's": places_down_the_tree(3, 3),
    "places that fall down the tree": places_down_the_tree(999999, 10, 9, 0),
    "one place under every parent": places_down_the_tree(1, 1, 1, 1),
    "with the place 999999": arrays("one_to_one", 2, 2, (999999, 0, 99999, 999998)),
    "places that differ by a digit": arrays(None, 2, 2, (100000, 10000, 1000, 100)),
    "falling places of 64 traced rows": arrays(None, 8, 8, range(16, 0, -1)),
    "falling places of a full table": full_of_children(range(999999, 0, -10000)),
    "the array index 0": indexed(0),
    "the array index 4294967294": indexed(4294967294),
    "the array index 4294967295": indexed(4294967295),
    "the array index 4294967296": indexed(4294967296),
    "the array index 18446744073709551615": indexed(LARGEST_LONG),
    "array indices of all lengths": indexed(*(10 ** digits for digits in range(20)), LARGEST_LONG),
    "array indices at the limits of 32 and 64 bits": indexed(0, 4294967295, 4294967296, LARGEST_LONG, LARGEST_LONG - 4294967295),
    "array indices beside missing ones": indexed(None, 4294967295, None, LARGEST_LONG, None, 0),
    "array indices that are alike": indexed(12345678901234567890, 12345678901234567890),
    "array indices that differ in their high bits": indexed(7, 4294967296 + 7, 7),
    "missing array indices alone": indexed(None, None),
}

# Label -> (sheet, the number of its selections, whether that was cut). All are accepted.
MODES = {
    "modes of the only component, none": (modal(0), 0, False),
    "modes of three components, none": (modal(0, 0, 0), 0, False),
    "mode of the root": (modal(1), 1, False),
    "mode of a component below the root": (modal(0, 1), 1, False),
    "mode of each of two components": (modal(1, 1), 1, False),
    "two modes of the root": (modal(2), 2, False),
    "two modes and three": (modal(2, 3), 6, False),
    "three modes and two": (modal(3, 2), 6, False),
    "two modes, one and three": (modal(2, 1, 3), 6, False),
    "one mode, two and one": (modal(1, 2, 1), 2, False),
    "two modes each of four components": (modal(2, 2, 2, 2), 16, False),
    "two modes, none and two": (modal(2, 0, 2), 4, False),
    "components without modes on all sides": (modal(0, 2, 0, 0, 3, 0), 6, False),
    "rows of modes in turns": (modes_of([0, 1, 0, 1, 1, 0]), 9, False),
    "rows of modes around those of another": (modes_of([0, 1, 1, 0]), 4, False),
    "rows of modes from the last component to the first": (modes_of([2, 2, 1, 0, 0]), 4, False),
    "rows of modes, the root's behind all others": (modes_of([1, 2, 2, 0, 0]), 4, False),
    "modes of siblings by falling places": (modes_of([1, 1, 2, 2, 2, 3, 3], [(0, 9), (0, 4), (0, 0)]), 12, False),
    "modes of components one in the other": (modes_of([0, 0, 1, 1, 2, 2, 3, 3], [(0, 0), (1, 0), (2, 0)]), 16, False),
    "modes of a component inside an earlier one": (modes_of([0, 1, 1, 2, 2, 2, 3, 3], [(0, 0), (0, 1), (1, 0)]), 12, False),
    "modes with equal joined names": (modes_of([0, 0, 1, 1], names=["a", "a_b", "b_c", "c"]), 4, False),
    "modes with equal joined names of one spelling": (modes_of([0, 0, 1, 1], names=["a", "a_a", "a", "a_a"]), 4, False),
    "modes with equal joined names in three components": (modes_of([0, 0, 1, 1, 2, 2], names=["a", "a_b", "b_c", "c", "d", "c_d"]), 8, False),
    "modes of underscores": (modes_of([0, 0, 1, 1], names=["_", "__", "_", "__"]), 4, False),
    "modes of one name": (modes_of([0, 0], names=["on", "on"]), 2, False),
    "modes of one name in two N rows": (modes_of_one_name_in_two_rows(), 2, False),
    "modes of one name in two components": (modes_of([0, 0, 1, 1], names=["on", "on", "on", "on"]), 4, False),
    "modes that differ in case": (modes_of([0, 0, 1], names=["On", "on", "ON"]), 2, False),
    "modes with blanks and brackets": (modes_of([0, 0, 1, 1], names=[" ", "a b ", "\t", "x[1]"]), 4, False),
    "modes with the names of components": (modes_of([0, 0, 1], names=["c", "root", "c"]), 2, False),
    "modes, all of them initial": (modes_of([0, 0, 1, 1], initials=[1, 1, 1, 1]), 4, False),
    "modes, the second of each initial": (modes_of([0, 0, 1, 1], initials=[0, 1, 0, 1]), 4, False),
    "modes, none of one component initial": (modes_of([0, 0, 1, 1], initials=[1, 0, 0, 0]), 4, False),
    "modes of the run of document 01": (with_modes(run()), 6, False),
    "modes beside 65 traced rows": (with_modes(arrays(None, 13, 5)), 6, False),
    "modes beside a group over the visits": (modes_beside_visits(), 6, False),
    "modes of the root, 96": (modal(96), 96, False),
    "modes that are 95 and one": (modal(95, 1), 95, False),
    "modes that are 48 and 48": (modal(48, 48), 2304, False),
    "modes, one each of 96 components": (modal(*[1] * 96), 1, False),
    "modes, two each of 13 components": (modal(*[2] * 13), 8192, False),
    "modes of 9,996 selections": (modal(12, 7, 7, 17), 9996, False),
    "modes of 10,000 selections": (modal(10, 10, 10, 10), 10000, False),
    "modes of 10,000 selections by twos and fives": (modal(2, 2, 2, 2, 5, 5, 5, 5), 10000, False),
    "modes of 10,000 selections, then one each": (modal(10, 10, 10, 10, 1, 0, 1), 10000, False),
    "modes of 10,000 selections, one each before": (modal(1, 1, 10, 10, 10, 10), 10000, False),
    "modes of 10,005 combinations": (modal(15, 23, 29), 10000, True),
    "modes of 10,005 combinations, the most first": (modal(29, 23, 15), 10000, True),
    "modes of 11,000 combinations": (modal(10, 10, 10, 11), 10000, True),
    "modes of 32,768 combinations of three components": (modal(32, 32, 32), 10000, True),
    "modes, two each of 14 components": (modal(*[2] * 14), 10000, True),
    "modes, two each of 14 components, rows in turns": (modes_of([row % 14 for row in range(28)]), 10000, True),
    "modes, two each of 14 components, rows backwards": (modes_of([13 - row // 2 for row in range(28)]), 10000, True),
    "modes, two each of 15 components, rows backwards": (modes_of([14 - row // 2 for row in range(30)]), 10000, True),
    "modes, two each of 48 components": (modal(*[2] * 48), 10000, True),
    "modes, three each of nine components": (modal(*[3] * 9), 10000, True),
    "modes, three each of 32 components": (modal(*[3] * 32), 10000, True),
    "modes of 10,000 selections, then two": (modal(10, 10, 10, 10, 2), 10000, True),
    "modes of 10,000 selections, then one, then two": (modal(10, 10, 10, 10, 1, 2), 10000, True),
    "modes of 10,000 selections, then two, then one": (modal(10, 10, 10, 10, 2, 1), 10000, True),
    "modes cut before a component with one": (modal(10, 10, 10, 11, 1), 10000, True),
    "modes cut before a component with three": (modal(10, 10, 10, 11, 3), 10000, True),
    "modes cut before several components": (modal(10, 10, 10, 11, 0, 2, 0, 1, 3), 10000, True),
    "modes cut before a component whose rows come first": (modes_of([3, 3] + [row % 3 for row in range(66)]), 10000, True),
    "joined names of 4,096 bytes": (joined_bytes(65, 4096), 1, False),
    "joined names of 4,097 bytes": (joined_bytes(65, 4097), 1, False),
    "joined names of 6,143 bytes": (joined_bytes(96, 6143), 1, False),
    "joined names of 4,096 bytes, then of 4,097": (longer_from_the_second(), 2, False),
    "joined names over 4,096 bytes of a cut list": (longer_and_cut(), 10000, True),
}

# Label of MODES, the number of a selection, and what it is with outputs as `mode` lends them, or the number of its refusal.
SELECTIONS = [
    ("modes of three components, none", 0, 20),
    ("modes of three components, none", LARGEST_LONG, 20),
    ("mode of the root", 0, Selection([0], b"m0")),
    ("mode of the root", 1, 20),
    ("two modes of the root", 1, Selection([1], b"m1")),
    ("two modes and three", 0, Selection([0, 2], b"m0_m2")),
    ("two modes and three", 1, Selection([0, 3], b"m0_m3")),
    ("two modes and three", 2, Selection([0, 4], b"m0_m4")),
    ("two modes and three", 3, Selection([1, 2], b"m1_m2")),
    ("two modes and three", 4, Selection([1, 3], b"m1_m3")),
    ("two modes and three", 5, Selection([1, 4], b"m1_m4")),
    ("two modes and three", 6, 20),
    ("two modes and three", 4294967296, 20),
    ("two modes, one and three", 4, Selection([1, 2, 4], b"m1_m2_m4")),
    ("components without modes on all sides", 3, Selection([1, 2], b"m1_m2")),
    ("rows of modes in turns", 5, Selection([2, 4], b"m2_m4")),
    ("rows of modes around those of another", 1, Selection([0, 2], b"m0_m2")),
    ("rows of modes around those of another", 2, Selection([3, 1], b"m3_m1")),
    ("rows of modes from the last component to the first", 0, Selection([3, 2, 0], b"m3_m2_m0")),
    ("rows of modes from the last component to the first", 1, Selection([3, 2, 1], b"m3_m2_m1")),
    ("rows of modes from the last component to the first", 2, Selection([4, 2, 0], b"m4_m2_m0")),
    ("rows of modes, the root's behind all others", 2, Selection([4, 0, 1], b"m4_m0_m1")),
    ("modes of siblings by falling places", 1, Selection([0, 2, 6], b"m0_m2_m6")),
    ("modes of a component inside an earlier one", 1, Selection([0, 1, 3, 7], b"m0_m1_m3_m7")),
    ("modes of a component inside an earlier one", 2, Selection([0, 1, 4, 6], b"m0_m1_m4_m6")),
    ("modes with equal joined names", 0, Selection([0, 2], b"a_b_c")),
    ("modes with equal joined names", 3, Selection([1, 3], b"a_b_c")),
    ("modes of one name", 0, Selection([0], b"on")),
    ("modes of one name", 1, Selection([1], b"on")),
    ("modes that differ in case", 1, Selection([1, 2], b"on_ON")),
    ("modes with blanks and brackets", 2, Selection([1, 2], b"a b _\t")),
    ("modes, none of one component initial", 0, Selection([0, 2], b"m0_m2")),
    ("modes of the run of document 01", 5, Selection([1, 4], b"high_stop")),
    ("modes beside 65 traced rows", 5, Selection([1, 4], b"high_stop")),
    ("modes beside a group over the visits", 5, Selection([1, 4], b"high_stop")),
    ("modes that are 48 and 48", 2303, Selection([47, 95], b"m47_m95")),
    ("modes, one each of 96 components", 0, Selection(list(range(96)), b"_".join(b"m%d" % row for row in range(96)))),
    ("modes of 10,000 selections", 1234, Selection([1, 12, 23, 34], b"m1_m12_m23_m34")),
    ("modes of 10,000 selections", 9999, Selection([9, 19, 29, 39], b"m9_m19_m29_m39")),
    ("modes of 10,000 selections", 10000, 20),
    ("modes of 10,000 selections, then one each", 9999, Selection([9, 19, 29, 39, 40, 41], b"m9_m19_m29_m39_m40_m41")),
    ("modes of 10,005 combinations", 9999, Selection([14, 37, 61], b"m14_m37_m61")),
    ("modes of 10,005 combinations", 10000, 20),
    ("modes of 11,000 combinations", 9999, Selection([9, 10, 29, 30], b"m9_m10_m29_m30")),
    ("modes of 32,768 combinations of three components", 9999, Selection([9, 56, 79], b"m9_m56_m79")),
    ("modes of 10,000 selections, then two", 9999, Selection([4, 19, 29, 39, 41], b"m4_m19_m29_m39_m41")),
    ("modes of 10,000 selections, then two, then one", 9999, Selection([4, 19, 29, 39, 41], b"m4_m19_m29_m39_m41")),
    ("modes cut before a component with one", 0, Selection([0, 10, 20, 30], b"m0_m10_m20_m30")),
    ("modes cut before several components", 11, Selection([0, 10, 21, 30], b"m0_m10_m21_m30")),
    ("modes cut before a component whose rows come first", 0, Selection([2, 3, 4], b"m2_m3_m4")),
    ("modes, two each of 48 components", 10000, 20),
    ("joined names of 4,097 bytes", 0, 14),
    ("joined names of 4,097 bytes", 1, 20),
    ("joined names of 6,143 bytes", 0, 14),
    ("joined names of 4,096 bytes, then of 4,097", 1, 14),
    ("joined names over 4,096 bytes of a cut list", 9999, 14),
    ("joined names over 4,096 bytes of a cut list", 10000, 20),
]

# Label -> (sheet, what the ported entry prints of it, what the second one prints, which ignores letter case). All are accepted, and the Rust answers all.
IGNORING_CASE = {
    "Pump before pump[1]": (wired("Pump pump[1] b", "pump"), wires("0 0 2 3 1 0"), wires("0 0 1 3 1 0")),
    "Pump with an index before pump[1]": (
        with_fields(wired("Pump pump[1] b", "pump"), 1, array_index=7),
        wires("0 0 1 3 1 0", "0 0 2 3 1 0"),
        wires("0 0 1 3 1 0")),
    "elements in two cases": (wired("pump[1] PUMP[2] b", "pump"), wires("0 0 1 3 1 0", "0 0 2 3 1 0"), wires("0 0 1 3 1 0", "0 0 2 3 1 0")),
    "Pump[1] wanted as pump[1]": (
        wired("Pump[1] b", "pump[1]"),
        printed("D 2 0 6 0 | ! connection 'c': unresolved source subcomponent 'pump[1]' | @ root | @ c | Z 0 0"),
        wires("0 0 1 2 1 0")),
    "Pump[1] and pump[1] wanted as pump[1]": (wired("Pump[1] pump[1] b", "pump[1]"), wires("0 0 2 3 1 0"), wires("0 0 1 3 1 0", "0 0 2 3 1 0")),
    "Pump[2] wanted as pump[1]": (
        wired("Pump[2] b", "pump[1]"),
        *2 * [printed("D 2 0 6 0 | ! connection 'c': unresolved source subcomponent 'pump[1]' | @ root | @ c | Z 0 0")]),
    "children in two cases": (wired("A a b", "a"), wires("0 0 2 3 1 0"), wires("0 0 1 3 1 0", "0 0 2 3 1 0")),
    "children in two cases by place": (with_fields(wired("A a b", "a"), 1, place=9), wires("0 0 2 3 1 0"), wires("0 0 2 3 1 0", "0 0 1 3 1 0")),
    "one to one, more sources in two cases": (
        wired("a A b", "a", pattern="one_to_one"),
        wires("0 0 1 3 1 0"),
        printed("S 0 0 1 3 1 0 | = c | < f | > f"
                " | D 4 0 2 1 | ! connection 'c': One_To_One pattern requires equal array sizes (source=2, destination=1) | @ root | @ c | Z 1 0")),
    "one to one, as many sources in two cases": (
        wired("A a b b", "a", pattern="one_to_one"),
        printed("S 0 0 2 3 1 0 | = c | < f | > f"
                " | D 4 0 1 2 | ! connection 'c': One_To_One pattern requires equal array sizes (source=1, destination=2) | @ root | @ c | Z 1 0"),
        wires("0 0 1 3 1 0", "0 0 2 4 1 0")),
    "both ends in another case": (
        wired("A B", "a"),
        printed("D 2 0 6 0 | ! connection 'c': unresolved source subcomponent 'a' | @ root | @ c"
                " | D 3 0 8 0 | ! connection 'c': unresolved destination subcomponent 'b' | @ root | @ c | Z 0 0"),
        wires("0 0 1 2 1 0")),
    "source in another case, wired to the root": (
        wired("A", "a", None),
        printed("D 2 0 5 0 | ! connection 'c': unresolved source subcomponent 'a' | @ root | @ c | Z 0 0"),
        wires("0 0 1 0 1 0")),
    "destination in another case, wired to the root": (
        wired("A", None, "a"),
        printed("D 3 0 6 0 | ! connection 'c': unresolved destination subcomponent 'a' | @ root | @ c | Z 0 0"),
        wires("0 0 0 1 1 0")),
    "feature in another case towards the source": (one_step("source", "F"), wires("0 0 1 2 1 0"), printed("S 0 0 3 2 2 0 1 | = c | < g | > f | Z 1 0")),
    "feature in another case towards the destination": (one_step("destination", "F"), wires("0 0 1 2 1 0"), printed("S 0 0 1 3 2 0 1 | = c | < f | > g | Z 1 0")),
    "feature in two cases": (
        one_step("source", "F", "f"),
        printed("S 0 0 3 2 2 0 2 | = c | < g | > f | Z 1 0"),
        printed("S 0 0 3 2 2 0 1 | = c | < g | > f | S 0 0 3 2 2 0 2 | = c | < g | > f | Z 2 0")),
    "child in another case towards the source": (one_step("source", "f", wanted="M"), wires("0 0 1 2 1 0"), printed("S 0 0 3 2 2 0 1 | = c | < g | > f | Z 1 0")),
    "child in another case towards the destination": (
        one_step("destination", "f", wanted="M"),
        wires("0 0 1 2 1 0"),
        printed("S 0 0 1 3 2 0 1 | = c | < f | > g | Z 1 0")),
    "feature and child in another case": (one_step("source", "F", wanted="M"), wires("0 0 1 2 1 0"), printed("S 0 0 3 2 2 0 1 | = c | < g | > f | Z 1 0")),
    "outer feature in another case in the midst of a chain": (
        with_feature(chain(3), 2, "destination_feature", "F"),
        printed("S 0 0 3 1 2 0 1 | = top | < f | > f | Z 1 0"),
        printed("S 0 0 5 1 4 0 1 2 3 | = top | < f | > f | Z 1 0")),
    "inner feature in another case in the midst of a chain": (
        with_feature(chain(3), 2, "source_feature", "F"),
        printed("S 0 0 4 1 3 0 1 2 | = top | < F | > f | Z 1 0"),
        printed("S 0 0 5 1 4 0 1 2 3 | = top | < f | > f | Z 1 0")),
    "inner feature in another case at the end of a chain": (
        with_feature(chain(3), 3, "source_feature", "F"),
        *2 * [printed("S 0 0 5 1 4 0 1 2 3 | = top | < F | > f | Z 1 0")]),
    "chain of 21 steps, the first in another case": (
        with_feature(chain(21), 1, "destination_feature", "F"),
        printed("S 0 0 2 1 1 0 | = top | < f | > f | Z 1 0"),
        printed("S 0 0 22 1 21 0 1 2 3 4 5 6 7 8 9 10 11 12 13 14 15 16 17 18 19 20 | = top | < f | > f | Z 1 0")),
    "group of children in two cases": (
        group_of_a_child(group_of_one_feature(), "A a", "a", (1, 2)),
        printed("S 0 2 2 0 1 0 | = c | < g | > g | S 0 0 2 0 1 0 | = c.f | < g.f | > g.f | Z 1 1"),
        printed("S 0 2 1 0 1 0 | = c | < g | > g | S 0 2 2 0 1 0 | = c | < g | > g | S 0 0 1 0 1 0 | = c.f | < g.f | > g.f | Z 2 1")),
    "group of a child in another case": (
        group_of_a_child(group_of_one_feature(), "A", "a", (1,)),
        printed("D 2 0 8 0 | ! connection 'c': unresolved source subcomponent 'a' | @ root | @ c | Z 0 0"),
        printed("S 0 2 1 0 1 0 | = c | < g | > g | S 0 0 1 0 1 0 | = c.f | < g.f | > g.f | Z 1 1")),
    "group of pump[1], which Pump has not": (
        group_of_a_child(group_of_one_feature(), "Pump pump[1]", "pump", (2,)),
        printed("S 0 2 2 0 1 0 | = c | < g | > g | S 0 0 2 0 1 0 | = c.f | < g.f | > g.f | Z 1 1"),
        printed("S 0 2 1 0 1 0 | = c | < g | > g | Z 1 0")),
    "group over the visits of a child in another case": (
        group_of_a_child(nested_in_itself(3), "A", "a", (1,)),
        printed("D 2 0 10 0 | ! connection 'c': unresolved source subcomponent 'a' | @ root | @ c | Z 0 0"),
        printed("R 13 0 -")),
    "33 wires from a child in two cases": (
        wired("a A b", "a", wires=33),
        wires(*("%d 0 1 3 1 %d" % (x, x) for x in range(33))),
        printed("R 11 0 -")),
    "33 wires between children in another case": (wired("a b", "A", "B", wires=33), printed("R 12 0 -"), wires(*("%d 0 1 2 1 %d" % (x, x) for x in range(33)))),
    "65 wires from a child in another case": (wired("a b", "A", wires=65), printed("R 12 0 -"), printed("R 11 0 -")),
    "names in two cases that meet nowhere": (with_names(wired("a b", "a"), "A", "B", "F"), *2 * [wires("0 0 1 2 1 0")]),
    "names apart": (run(), *2 * [printed("S 0 0 3 2 2 0 1 | = c1 | < set | > set | Z 1 0")]),
}

# Label -> (sheet, step limit, what either entry prints at that limit).
LIMITS = {
    "chain of one step at 0": (chain(1).bytes(), 0, chained(row("0 0 2 1", 0))),
    "chain of 20 steps at 0": (chain(20).bytes(), 0, chained(row("0 0 2 1", 0))),
    "wires to and from the root at 0": (
        one_end((1, 0)).bytes(),
        0,
        printed("S 0 0 2 0 1 0 | = up | < f | > f | S 0 0 1 0 1 0 | = up | < f | > f"
                " | S 1 0 0 2 1 1 | = down | < f | > f | S 1 0 0 1 1 1 | = down | < f | > f | Z 4 0")),
    "pairs one to one at 0": (arrays("one_to_one", 2, 2).bytes(), 0, wires("0 0 1 3 1 0", "0 0 2 4 1 0")),
    "pairs up to the shorter at 0": (
        arrays("one_to_one", 2, 1).bytes(),
        0,
        printed("S 0 0 1 3 1 0 | = c | < f | > f"
                " | D 4 0 2 1 | ! connection 'c': One_To_One pattern requires equal array sizes (source=2, destination=1) | @ root | @ c | Z 1 0")),
    "no source child at 0": (
        wired("b", "a").bytes(),
        0,
        printed("D 2 0 5 0 | ! connection 'c': unresolved source subcomponent 'a' | @ root | @ c | Z 0 0")),
    "group rows at 0": (
        group_of_a_child(group_of_one_feature(), "a", "a", (1,)).bytes(),
        0,
        printed("S 0 2 1 0 1 0 | = c | < g | > g | S 0 0 1 0 1 0 | = c.f | < g.f | > g.f | Z 1 1")),
    "step to elements at 0": (fan((1, 0), (0,)).bytes(), 0, printed("S 0 0 1 2 1 0 | = across | < f | > f | Z 1 0")),
    "step to elements at 1": (
        fan((1, 0), (0,)).bytes(),
        1,
        printed("S 0 0 4 5 3 0 1 2 | = across | < g | > g | S 0 0 3 5 3 0 1 2 | = across | < g | > g | Z 2 0")),
    "two steps towards the source, one towards the destination, at 1": (both_ways(2, 1).bytes(), 1, wires(row("0 0 2 2", 0, 1, 2))),
    "one step towards the source, two towards the destination, at 1": (both_ways(1, 2).bytes(), 1, wires(row("0 0 2 2", 0, 1, 2))),
    "two steps towards both at 1": (both_ways(2, 2).bytes(), 1, wires(row("0 0 2 2", 0, 1, 2))),
    "one step towards both at 1": (both_ways(1, 1).bytes(), 1, wires(row("0 0 2 2", 0, 1, 2))),
    "one step towards the source alone at 1": (both_ways(1, 0).bytes(), 1, wires(row("0 0 2 1", 0, 1))),
    "two steps towards the source alone at 1": (both_ways(2, 0).bytes(), 1, wires(row("0 0 2 1", 0, 1))),
    "two steps towards the destination alone at 1": (both_ways(0, 2).bytes(), 1, wires(row("0 0 1 2", 0, 1))),
    "second step in another case at 1": (with_feature(chain(2), 2, "destination_feature", "F").bytes(), 1, chained(row("0 0 3 1", 0, 1))),
    "elements with no step, one step and two at 1": (
        chains_of_an_array(0, 1, 2).bytes(),
        1,
        wires(row("0 0 1 0", 0), row("0 0 4 0", 0, 1), row("0 0 5 0", 0, 2))),
    "four connections at each of 20 steps, at 0": (chain(20, 4).bytes(), 0, chained(row("0 0 2 1", 0))),
    "four connections at each of 20 steps, at 1": (chain(20, 4).bytes(), 1, chained(*(row("0 0 3 1", 0, step) for step in (1, 2, 3, 4)))),
    "four connections at each of 20 steps, at 19": (chain(20, 4).bytes(), 19, printed("R 11 0 -")),
    "chain of 20 steps at 19": (chain(20).bytes(), 19, chained(row("0 0 21 1", *range(20)))),
    "chain of 21 steps at 20": (chain(21).bytes(), 20, chained(row("0 0 22 1", *range(21)))),
    "chain of 21 steps at 21": (chain(21).bytes(), 21, chained(row("0 0 23 1", *range(22)))),
    "chain of 21 steps at 64": (chain(21).bytes(), 64, chained(row("0 0 23 1", *range(22)))),
    "21 steps towards both at 21": (both_ways(21, 21).bytes(), 21, wires(row("0 0 22 22", 0, *range(1, 42, 2), *range(2, 43, 2)))),
    "22 steps towards both at 21": (both_ways(22, 22).bytes(), 21, wires(row("0 0 22 22", 0, *range(1, 42, 2), *range(2, 43, 2)))),
    "chain of 64 steps at 63": (chain(64).bytes(), 63, chained(row("0 0 65 1", *range(64)))),
    "chain of 64 steps at 64": (chain(64).bytes(), 64, chained(row("0 0 66 1", *range(65)))),
    "chain of 65 steps at 64": (chain(65).bytes(), 64, chained(row("0 0 66 1", *range(65)))),
    "chain of 93 steps at 64": (chain(93).bytes(), 64, chained(row("0 0 66 1", *range(65)))),
    "path of 96 connections at 64": (both_ways(64, 31).bytes(), 64, wires(row("0 0 65 32", 0, *range(1, 62, 2), *range(63, 96), *range(2, 63, 2)))),
    "path of 129 connections, of which conlist lends 96": (both_ways(64, 64).bytes(), 64, printed("R 5 172 -")),
    "empty sheet at 64": (b"", 64, printed("R 7 0 C")),
    "empty sheet at 65": (b"", 65, printed("R 19 0 -")),
    "run of document 01 at 65": (run().bytes(), 65, printed("R 19 0 -")),
    "run of document 01 at 20 and 2 to the 32nd": (run().bytes(), 2 ** 32 + 20, printed("R 19 0 -")),
    "run of document 01 at the largest number": (run().bytes(), LARGEST_LONG, printed("R 19 0 -")),
    "name past its table at 65": (with_fields(tree((0, 4), (0, 5)), 2, type=9).bytes(), 65, printed("R 19 0 -")),
    "parent missing at 65": (with_fields(tree((0, 4), (0, 5)), 2, parent=None).bytes(), 65, printed("R 19 0 -")),
    "clash of places at 65": (tree((0, 4), (0, 4)).bytes(), 65, printed("R 19 0 -")),
    "end without feature at 65": (with_end_without_feature(tree((0, 4))).bytes(), 65, printed("R 19 0 -")),
    "equal packages at 65": (with_equal_packages(tree((0, 4))).bytes(), 65, printed("R 19 0 -")),
    "over the visits at 65": (nested_in_itself(3).bytes(), 65, printed("R 19 0 -")),
    "65 traced rows at 65": (arrays(None, 13, 5).bytes(), 65, printed("R 19 0 -")),
    "sheet of 16,385 bytes at 65": (b"y" * 16385, 65, printed("R 1 0 -")),
    "last line without LF at 65": (run().bytes()[:-1], 65, printed("R 2 16 -")),
    "letter alone without LF at the largest number": (b"N", LARGEST_LONG, printed("R 2 1 -")),
    "letter out of order at 65": (run().bytes() + b"N y\n", 65, printed("R 3 17 -")),
    "index with a zero in front at 65": (indexed(7, "01").bytes(), 65, printed("R 4 13 -")),
    "one more package than conlist lends at 65": (full_table("P", 1).bytes(), 65, printed("R 5 203 -")),
}

# The same of sheets for which conlist lends too few rows, over tables with so many rows of each letter.
ROWS_FOR_LONG_PATHS = 256
LIMITS_OF_LONG_PATHS = {
    "64 steps towards both at 64": (both_ways(64, 64).bytes(), 64, wires(row("0 0 65 65", 0, *range(1, 128, 2), *range(2, 129, 2)))),
    "65 steps towards both at 64": (both_ways(65, 65).bytes(), 64, wires(row("0 0 65 65", 0, *range(1, 128, 2), *range(2, 129, 2)))),
    "64 steps towards both at 63": (both_ways(64, 64).bytes(), 63, wires(row("0 0 64 64", 0, *range(1, 126, 2), *range(2, 127, 2)))),
}

# Label -> (sheet, its refusal). A label has no number in second place: that is where the seed of a generated sheet stands.
REFUSED = {
    "clash of places": (tree((0, 4), (0, 4)).bytes(), Refusal(16, "C", 2)),
    "clash of places, three alike": (tree((0, 4), (0, 4), (0, 4)).bytes(), Refusal(16, "C", 2)),
    "clash of places with a sibling further up": (tree((0, 4), (0, 5), (1, 4), (0, 4)).bytes(), Refusal(16, "C", 4)),
    "clash of places inside another": (tree((0, 4), (0, 5), (0, 5), (0, 4)).bytes(), Refusal(16, "C", 3)),
    "clash of places inside that of another parent": (tree((0, 4), (1, 4), (1, 4), (0, 4)).bytes(), Refusal(16, "C", 3)),
    "clash of places below the root alone": (tree((0, 4), (0, 5), (2, 4), (2, 4)).bytes(), Refusal(16, "C", 4)),
    "clash of places under two parents": (tree((0, 0), (0, 1), (2, 7), (1, 7), (1, 7), (2, 7)).bytes(), Refusal(16, "C", 5)),
    "clash of places 0, as the root's": (tree((0, 0), (0, 0)).bytes(), Refusal(16, "C", 2)),
    "clash of places 999999": (tree((0, 999999), (0, 0), (0, 999999)).bytes(), Refusal(16, "C", 3)),
    "clash of places before 8": (with_end_without_feature(tree((0, 4), (0, 4))).bytes(), Refusal(16, "C", 2)),
    "clash of places before 9": (with_equal_packages(tree((0, 4), (0, 4))).bytes(), Refusal(16, "C", 2)),
    "parent missing, then a clash of places": (with_fields(tree((0, 4), (0, 4), (0, 5)), 3, parent=None).bytes(), Refusal(7, "C", 3)),
    "parent not smaller, then a clash of places": (with_fields(tree((0, 4), (0, 4), (0, 5)), 3, parent=3).bytes(), Refusal(7, "C", 3)),
    "name past its table, then a clash of places": (with_fields(tree((0, 4), (0, 4), (0, 5)), 3, type=9).bytes(), Refusal(6, "C", 3)),
    "place missing": (with_fields(tree((0, 0)), 1, place=None).bytes(), Refusal(4, "-", 6)),
    "place of the root missing": (with_fields(tree((0, 0)), 0, place=None).bytes(), Refusal(4, "-", 5)),
    "place with a zero in front": (with_fields(tree((0, 0)), 1, place="01").bytes(), Refusal(4, "-", 6)),
    "place of seven digits": (with_fields(tree((0, 0)), 1, place=1000000).bytes(), Refusal(4, "-", 6)),
    "run of document 01 without its places": (without_places(run().bytes()), Refusal(4, "-", 11)),
    "run of document 01 with array indices in six columns": (with_short_indices(run().bytes()), Refusal(4, "-", 11)),
    "run of document 01 as it stands there": (without_places(with_short_indices(run().bytes())), Refusal(4, "-", 11)),
    "array indices in six columns": (with_short_indices(indexed(1, 2).bytes()), Refusal(4, "-", 10)),
    "index one above the largest": (indexed(7, LARGEST_LONG + 1).bytes(), Refusal(4, "-", 13)),
    "index of twenty digits, 5 above the largest": (indexed(7, LARGEST_LONG + 5).bytes(), Refusal(4, "-", 13)),
    "index of twenty nines": (indexed(7, "9" * 20).bytes(), Refusal(4, "-", 13)),
    "index of twenty-one digits": (indexed(7, "1" * 21).bytes(), Refusal(4, "-", 13)),
    "index with a zero in front": (indexed(7, "01").bytes(), Refusal(4, "-", 13)),
    "index of twenty digits with a zero in front": (indexed(7, "0" + "7" * 19).bytes(), Refusal(4, "-", 13)),
    "index that is blank": (indexed(7, "").bytes(), Refusal(4, "-", 13)),
    "index that ends before its last column": (indexed(7, "7 ").bytes(), Refusal(4, "-", 13)),
    "index that is padded behind": (indexed(7, "7".rjust(6).ljust(20)).bytes(), Refusal(4, "-", 13)),
    "index missing, not in the last column": (indexed(7, "- ").bytes(), Refusal(4, "-", 13)),
    "index with a sign": (indexed(7, "+7").bytes(), Refusal(4, "-", 13)),
    "index below zero": (indexed(7, "-7").bytes(), Refusal(4, "-", 13)),
    "index with a space inside": (indexed(7, "1 000").bytes(), Refusal(4, "-", 13)),
    "mode of a component past its table": (with_mode(with_modes(run()), owner=4).bytes(), Refusal(6, "M", 5)),
    "mode with a name past its table": (with_mode(with_modes(run()), name=15).bytes(), Refusal(6, "M", 5)),
    "mode with the initial flag 2": (with_mode(with_modes(run()), initial=2).bytes(), Refusal(6, "M", 5)),
    "mode with the initial flag 2 in the first row": (with_mode(run(), initial=2).bytes(), Refusal(6, "M", 0)),
    "mode with the initial flag 2, and a rename with a bad name": (with_mode(with_rename(run()), initial=2).bytes(), Refusal(6, "R", 0)),
    "mode with the initial flag 2, then a clash of places": (with_mode(tree((0, 4), (0, 4)), initial=2).bytes(), Refusal(6, "M", 0)),
    "mode of no component": (mode_alone().bytes(), Refusal(6, "M", 0)),
    "mode without its initial flag": (with_mode(run(), initial=None).bytes(), Refusal(4, "-", 17)),
    "mode without its owner": (with_mode(run(), owner=None).bytes(), Refusal(4, "-", 17)),
    "mode without its name": (with_mode(run(), name=None).bytes(), Refusal(4, "-", 17)),
    "mode with a zero in front": (with_mode(run(), initial="01").bytes(), Refusal(4, "-", 17)),
    "mode whose line ends behind its owner": (with_mode(run()).bytes()[:-7] + b"\n", Refusal(4, "-", 17)),
    "mode whose line has a field more": (with_mode(run()).bytes()[:-1] + b"     0\n", Refusal(4, "-", 17)),
    "mode, and a package behind it": (with_mode(run()).bytes() + b"P     0\n", Refusal(3, "-", 18)),
    "mode, and a rename behind it": (with_mode(run()).bytes() + with_rename(run()).bytes().splitlines(keepends=True)[-1], Refusal(3, "-", 18)),
    "mode, the last line without LF": (with_mode(run()).bytes()[:-1], Refusal(2, "-", 17)),
    "clash of places in the last row of many": (full_of_children([*range(94), 0]).bytes(), Refusal(16, "C", 95)),
}

# File name -> sheet: see docs/DIFFERENCES.md.
DIFFERENCES = {
    "rename_package_with_colons": renamed_group("a::b", "u"),
    "rename_package_ends_in_colon": renamed_group("a:", "u"),
    "rename_package_ends_in_blank": renamed_group("a ", "u"),
    "rename_type_begins_with_blank": renamed_group("a", " u"),
    "rename_finds_another": renamed_group_finds_another(),
    "tracing_is_case_sensitive": features_that_differ_in_case(),
    "private_group_is_found": private_group_of_another_package(),
}

# File name -> sheet: accepted, and the Rust does not end on it, or not soon.
NOT_ENDING = {
    "endless_chains": chain(20, 4),
    "endless_visits": nested_in_itself(95, "n"),
    "slow_matching": many_features_without_a_match(),
}
