"""A second reading of the paper "The connection listing and its rules" (01)
and of those requests for changes of it (02) that have landed.

It answers, for any bytes, what the programs print: `conlist` the connections,
`modes` the number of selections of modes, `mode` one of these; and what the
second entry lists, which ignores letter case where the ported one does not,
in the form of `conlist`. Where a function has a parameter `ignore_case`, this
says for which of the two entries it answers; `limit` is the step limit of the
traced listing. All is written from the papers' own sentences, each quoted over
the function that follows it, so that another definition of the same papers can
be compared with it. Behind a sentence of 02 stands its request, as (02, i).
Names are bytes, numbers do not wrap, rows count from 0.

    second_reading.py < sheet                prints the answer of `conlist`
    second_reading.py --ignore-case < sheet  that of the second entry
    second_reading.py modes < sheet          that of `modes`
    second_reading.py mode NUMBER < sheet    that of `mode NUMBER`

The answers of the two entries are those at a limit of 20; with `--limit NUMBER`
behind the words, those at this one.

It marks every rule that it applies. `stream` beside it compares a stream of
cases, and counts these marks.
"""

import collections
import itertools
import math
import re
import sys

# ---------------------------------------------------------------------------
# The rules, each with its sentence of 01 or 02.

_DROP = ("`parse_connection_pattern` drops round brackets, commas, spaces, tabs, and compares "
         "folded with the fixed bytes \"one_to_one\"")
_PLACE = "The `C` line gains a field after pattern, the place among siblings."
_BY_PLACE = "Pairs, chains and the first found child follow that place from then on."
_BY_ROW = "Demand 2 covers child lists in any order; connections still go by row."
_LONG = "The third field of `C` becomes twenty columns for 64 bits, as in the Rust."
_BITS = ("In the tables three columns hold it, present 0 or 1, high 32 bits, low 32 bits, so no number "
         "stands for missing; present above 1, or 0 with other bits set, is the existing 6.")
_LARGEST = "18,446,744,073,709,551,615 is taken; one more is refused by the existing 4."
_MODE = "Add a letter `M` after `R`: name, owner component, initial 0 or 1."
_BY_OWNER = ("Components with modes and their modes come in row order; the last one's mode changes "
             "fastest, and the mode names are joined by an underscore.")
_CUT = ("If the growing list passes 10,000 at a component, its first 10,000 selections count and later "
        "components are missing from each, as in the Rust; that goes into DIFFERENCES.")
_SELECTION = ("One call gives the number of selections and whether it was cut, another the selection at "
              "a number the caller names, as `M` rows with the joined name.")
_TWICE = "None is given twice."
_LACKING = ("With no modes at all the number is 0 and nothing is cut; else cut is said exactly if some "
            "combination of all components with modes is lacking.")
_20 = ("A selection number not below the number of selections is refused as 20, after the tables' "
       "checks; a selection longer than its output is then the existing 11, and a joined name longer "
       "than its output the existing 14.")
_LINKS = ("build once a first child per component and a next sibling per child, in a lent table that the "
          "listing itself fills, and walk these.")
_WALK = ("Prove that the walk gives the same children in the same order as a scan by place for each "
         "accepted model.")
_ROW_OF_LINKS = "The link table is an output, its row the first child and the next sibling, missing as in 01."
_22 = "One of fewer whole rows than components is refused as 22, after the tables' checks and 21."
_FOLDED = "tracing compares features folded and the first child rule compares names folded."
_LIMIT = "The traced listing's limit becomes an argument, 0 to 64; 20 holds wherever none is named."
_PLACES = "A row of either listing then has places for 129 connections, the path handed down for 65."
_TWO_LIMITS = ("For two limits, the lists are equal exactly when they are the same number or no followed "
               "chain has a step beyond the smaller.")
_19 = "A limit above 64 is refused as 19, after 5 and before 10."
_STEP = ("a connection of that component with a source subcomponent, no destination subcomponent, "
         "its destination feature byte-equal, and one found child.")
_CHILD = ("byte-equal names; if none and the wanted name has no `[`, children with an array index "
          "whose name up to the first `[` is equal folded.")
_PACK = ("a reference with a package is looked up there, after at most one replacement by the "
         "asking package's package renames.")
_BARE = ("Without a package: own package, then classifier rename, then (no implementation name) "
         "group rename, then imports in order.")
_ONE = "with an implementation name only Q; otherwise T, then U."
_PRIVATE = "A private hit from outside gives nothing; U is not tried after a private T."
_TARGET = ("A rename's target, implementation name kept, is a reference with a package, asked from "
           "the same package.")
_INVERSE = ("inverse_of, where present, replaces everything of the type itself and turns the "
            "inverse flag.")
_NESTED = ("A nested group with a classifier is expanded with its name joined to the prefix by a "
           "dot; without one it is listed itself.")
_DEPTH = ("Depth is 0, and one more in each visit made by a visit (inverse_of, extends, nested "
          "group); above 10, and for a reference to no group type, nothing comes.")
_BOTH = ("Both with subcomponent: diagnostic 2 for no source child, 3 for no destination child; "
         "then 4 where the owner's pattern is one to one and the counts differ.")
_PAIRS = "Pairs up to the shorter list, or all, source outermost."
_PER_PAIR = ("Per pair every source chain with every destination chain; path is this connection, "
             "source steps, then destination steps not yet in it.")
_ONE_SIDE = ("One with subcomponent: only if the owner has no parent; 2 or 3 as above; the other "
             "end is the owner and is not traced.")
_END = "A chain ends where no step exists or after 20 steps;"
_21 = "it has a twenty-first step where one exists from the end of its twentieth."
_ENDPOINT = ("It needs an F row of the component (folded name, kind 8), the component's type "
             "resolved to a T (a reference with and from the component's package), and that type's "
             "first E row of that folded name and kind 8; if that row lacks a classifier, none.")
_ASKING = ("The asking package is the classifier's, else the component's, with no rename applied; "
           "the implementation name is dropped.")
_SEARCH = ("The search stops at the first destination feature whose last name is equal folded; "
           "prefixes are not compared.")
_CARRY = ("Rows carry \"connection.feature\" and the kind by `feature_kind_to_connection_kind`, "
          "both of the source feature, and group.prefix.feature names (group.feature without a "
          "prefix), the group spelled as in the X row.")
_FIRST = ("per X row of kind 2 with both ends: first found child, or the owner where no "
          "subcomponent is named; skip if none.")
_EITHER = ("`expand_endpoint_feature_group` on both, always; if either gives none (an empty "
           "expansion is not none), skip.")
_COLUMNS = ("a letter, then decimal fields of six columns, right-justified with spaces, no leading "
            "zeros.")
_NAME = "`N`: one space, then a name of 1 to 63 bytes, each 09 or 20 to 7E hexadecimal."
_4 = "length, field or name against the sheet's rules"
_5 = "that letter's lent table, or at `N` the byte table, has no place"
_6 = "a row or name number past its table, or a kind, flag, direction or what past its range"
_7 = "no component 0, or it has a parent, or another's parent is missing or not a smaller row"
_16 = "Two children of one parent with the same place are refused as 16, checked after 7."
_8 = ("an end with a subcomponent and no feature; a reference with a package or implementation and "
      "no type; a rename of what = 0 with an original name, or 1 or 2 without")
_9 = ("two P rows, or two rows of one package in T, Q, U or one kind of R, with equal folded keys "
      "(Q: the pair)")
_10 = ("in this order: table of no whole number of rows (row 0), over 4,096 rows (row 4,096), name "
       "past the byte table or against the byte or length rule")
_S = ("`S`: connection, kind, source component, destination component, path length, path; then "
      "`= ` row name, `< ` source feature, `> ` destination feature.")
_D = "`D`: the four numbers; then `! ` and the Rust's message, and `@ ` for each of its path names."

RULES = {
    # sheet and lines
    "1: sheet too long": "over 16,384 bytes",
    "2: letter unknown": "letter unknown, or last line without LF",
    "2: empty line": "letter unknown, or last line without LF",
    "2: last line without LF": "letter unknown, or last line without LF",
    "3: letter out of order": "letter earlier in order than the line before's",
    "4: length of the line": _4,
    "4: C line without its place": _PLACE,
    "4: field is no right-justified number": _COLUMNS,
    "4: leading zero": _COLUMNS,
    "4: C line with an index of six columns": _LONG,
    "4: array index too large": _LARGEST,
    "4: array index 18,446,744,073,709,551,616": _LARGEST,
    "4: array index with a leading zero": _COLUMNS,
    "4: array index, - not in the last column": _LONG,
    "4: array index is no right-justified number": _COLUMNS,
    "4: missing where not allowed": "A lone `-` in the last column means missing, allowed only in fields marked ?.",
    "4: N without its space": _NAME,
    "4: name length": _NAME,
    "4: name byte": _NAME,
    "5: N rows": _5,
    "5: rows of another letter": _5,
    # tables
    "6: name number": _6,
    "6: component row": _6,
    "6: package row": _6,
    "6: holder row": _6,
    "6: kind": _6,
    "6: flag": _6,
    "6: holder kind": _6,
    "6: direction": _6,
    "6: what": _6,
    "7: no component 0": _7,
    "7: component 0 has a parent": _7,
    "7: parent missing": _7,
    "7: parent not smaller": _7,
    "7: before 16": _16,
    "16: places": _16,
    "16: not with the sibling before": _16,
    "16: lowest of several": "letter and lowest bad row (where two rows clash, the later)",
    "16: inside another clash": "letter and lowest bad row (where two rows clash, the later)",
    "16: before 8 or 9": _16,
    "8: end without feature": _8,
    "8: package without type": _8,
    "8: implementation without type": _8,
    "8: package rename with a name": _8,
    "8: other rename without a name": _8,
    "9: packages": _9,
    "9: component types": _9,
    "9: implementations": _9,
    "9: group types": _9,
    "9: renames": _9,
    # resolution in one package
    "key found in another spelling": "Keys are folded.",
    "implementation name asks only Q": _ONE,
    "T before U": _ONE,
    "U found": _ONE,
    "private T from outside gives nothing": _PRIVATE,
    "private U from outside gives nothing": _PRIVATE,
    "private Q from outside gives nothing": _PRIVATE,
    "private hit from the own package": _PRIVATE,
    "U not tried after a private T": _PRIVATE,
    # resolve_classifier
    "reference with a package is looked up only there": _PACK,
    "package rename replaces": _PACK,
    "package rename applied once": _PACK,
    "package rename wins over a package of that name": _PACK,
    "own after replacement": "\"Own\" means equal keys after replacement.",
    "own package first": _BARE,
    "classifier rename": _BARE,
    "classifier rename keeps the implementation name": _TARGET,
    "classifier rename before group rename": _BARE,
    "group rename": _BARE,
    "group rename not with an implementation name": _BARE,
    "rename target through a package rename": _TARGET,
    "rename that finds nothing ends the search": "A matching rename ends the search, found or not.",
    "import found": _BARE,
    "import passed over, private": _BARE,
    "import passed over, not there": _BARE,
    "import is not replaced by a package rename": _BARE,
    # group expansion
    "depth above 10": _DEPTH,
    "reference to no group type": _DEPTH,
    "references inside ask from the package found in": "References inside a group ask from the package it was found in.",
    "inverse_of hides own features": _INVERSE,
    "inverse_of of an inverse turns back": _INVERSE,
    "inverse swaps in and out": "Inverse swaps in and out.",
    "extends before own": "Otherwise first the extended type's features, then the own.",
    "nested group with a classifier": _NESTED,
    "nested group without one": _NESTED,
    "prefix of two or more names": _NESTED,
    # places
    "children by place": "the children of a cabinet must come in the order of the drawing.",
    "places with gaps": _PLACE,
    "place of six digits": _PLACE,
    "equal places of two parents": _16,
    "root's place is a child's": _16,
    # links
    "links: a single component": _ROW_OF_LINKS,
    "links: component without children": _ROW_OF_LINKS,
    "links: one child": _LINKS,
    "links: several children": _LINKS,
    "links: children below the root": _LINKS,
    "links: first child is not the lowest row of its owner's": _WALK,
    "links: next sibling of a smaller row": _WALK,
    "links: next sibling beyond a row between": _WALK,
    "links: place of another owner's child between": _WALK,
    "links: last child, with another owner's behind its place": _WALK,
    "links: root has no next sibling": _ROW_OF_LINKS,
    # children
    "byte-equal child": _CHILD,
    "byte-equal child hides array children": _CHILD,
    "array rule by base name": _CHILD,
    "array rule with other case": _CHILD,
    "array rule needs an array index": _CHILD,
    "array index 0 is an index": _CHILD,
    "array index of over six digits": _LONG,
    "array index 4,294,967,295": _BITS,
    "array index of 2^32 or more": _LONG,
    "array index with low bits 0": _BITS,
    "array index of twenty digits": _LONG,
    "array index 18,446,744,073,709,551,615": _LARGEST,
    "wanted name with [ has no array rule": _CHILD,
    "no child found": _CHILD,
    # pattern
    "pattern one to one": _DROP,
    "pattern with dropped characters": _DROP,
    "pattern in another case": _DROP,
    "other pattern is all to all": "all else, and missing, is all to all.",
    "missing pattern is all to all": "all else, and missing, is all to all.",
    # steps and chains
    "step towards the source": _STEP,
    "step towards the destination": "Towards the destination, its mirror image.",
    "no step where only the case differs": _STEP,
    "no step without a found child": _STEP,
    "several found children in a step": _BY_PLACE,
    "steps by place": _BY_PLACE,
    "several connections in a step": _BY_ROW,
    "steps by connection, then place": _BY_ROW,
    "chain without a step": _END,
    "chain ends by no step": _END,
    "chain ends after 20 steps": _END,
    "exactly 20 steps": _21,
    "twenty-first step exists": _21,
    # X rows
    "diagnostic 1": "An end without feature: diagnostic 1, once, nothing more.",
    "diagnostic 1 once for both ends": "An end without feature: diagnostic 1, once, nothing more.",
    "both ends: diagnostic 2": _BOTH,
    "both ends: diagnostic 3": _BOTH,
    "both ends: diagnostic 4": _BOTH,
    "both ends: 4 beside 2 or 3": _BOTH,
    "pairs one to one": _PAIRS,
    "pairs one to one up to the shorter": _PAIRS,
    "pairs one to one by place": _BY_PLACE,
    "pairs all to all": _PAIRS,
    "pairs all to all by place": _BY_PLACE,
    "every source chain with every destination chain": _PER_PAIR,
    "path with source and destination steps": _PER_PAIR,
    "one end at the root: source": _ONE_SIDE,
    "one end at the root: destination": _ONE_SIDE,
    "one end at the root: diagnostic 2": _ONE_SIDE,
    "one end at the root: diagnostic 3": _ONE_SIDE,
    "one end at the root: by place": _BY_PLACE,
    "one end below the root gives nothing": _ONE_SIDE,
    "neither end with a subcomponent": "Neither: nothing.",
    # group listing
    "group list: an end is missing": _FIRST,
    "group list: first of several children": _FIRST,
    "group list: first child by place": _BY_PLACE,
    "group list: the owner itself": _FIRST,
    "group list: no child, skip": _FIRST,
    "none: no F row of that name": _ENDPOINT,
    "none: F row of another kind": _ENDPOINT,
    "none: component's type not found": _ENDPOINT,
    "none: component's type is a U": _ENDPOINT,
    "none: no E row": _ENDPOINT,
    "none: no classifier": _ENDPOINT,
    "first E row of kind 8": _ENDPOINT,
    "source none, destination expanded all the same": _EITHER,
    "empty expansion is not none": _EITHER,
    "asking package is the classifier's": _ASKING,
    "asking package is the component's": _ASKING,
    "asking package with no rename applied": _ASKING,
    "implementation name is dropped": _ASKING,
    "private group found from outside": "a private top-level group is found from outside.",
    "match in another case": _SEARCH,
    "first of several destination features": _SEARCH,
    "prefixes are not compared": _SEARCH,
    "kind of the source feature": _CARRY,
    "name with a prefix": _CARRY,
    "name without a prefix": _CARRY,
    "group spelled as in the X row": _CARRY,
    "diagnostic 5": "No match: diagnostic 5.",
    # modes
    "modes: none at all": _LACKING,
    "modes: some": _LACKING,
    "modes: initial 0": _MODE,
    "modes: initial 1": _MODE,
    "modes: not one initial of a component": _MODE,
    "modes: owner below the root": _MODE,
    "modes: several of a component": _BY_OWNER,
    "modes: of several components": _BY_OWNER,
    "modes: one of a component beside several of another": _BY_OWNER,
    "modes: component without any between": _BY_OWNER,
    "modes: rows interleaved": _BY_OWNER,
    "modes: rows not in the order of components": _BY_OWNER,
    "modes: components by row, not by place": _BY_OWNER,
    "modes: components by row, not as the tree goes": _BY_OWNER,
    "modes: two of one name in a component": _TWICE,
    "modes: equal joined names of other names": _TWICE,
    "modes: exactly 10,000": _CUT,
    "modes: cut": _CUT,
    "modes: cut at the last component": _LACKING,
    "modes: cut before the last component": _LACKING,
    "modes: cut behind exactly 10,000": _CUT,
    "mode: first selection": _SELECTION,
    "mode: last selection": _SELECTION,
    "mode: last one's mode changes fastest": _BY_OWNER,
    "mode: names joined": _BY_OWNER,
    "mode: selection 9,999 of a cut list": _CUT,
    "mode: later components are missing": _CUT,
    # refusals of a selection
    "20": _20,
    "20: no modes at all": _LACKING,
    "20: the number of selections itself": _20,
    "20: in a cut list": _CUT,
    "mode 14": _20,
    # refusals of the lists
    "traced 11": "more rows than the output holds",
    "traced 12": "more diagnostics than the output holds",
    "13": "one endpoint has over 65,536 visits",
    "group 11": "more rows than the output holds",
    "14": "composed names longer than their output",
    "group 12": "more diagnostics than the output holds",
    "15": "printed list longer than its output",
    # text
    "text: traced row": _S,
    "text: group row": _S,
    "text: traced diagnostic": _D,
    "text: group diagnostic": _D,
    "text: no row": "then `Z` with both row counts.",
    "text: refusal with a line": "A refusal prints only `R`, number, place, a space and the table letter or `-`.",
    "text: refusal with a table letter": "A refusal prints only `R`, number, place, a space and the table letter or `-`.",
    "text: refusal without a place": "A refusal prints only `R`, number, place, a space and the table letter or `-`.",
}

# Causes that no sheet reaches at conlist's sizes; tables and outputs of a caller do.
RULES_BEYOND_SHEETS = {
    "5: byte table": _5,
    "6: missing place": "In the tables a missing place is the existing 6.",
    "6: present above 1": _BITS,
    "6: high bits of a missing index": _BITS,
    "6: low bits of a missing index": _BITS,
    "10: no whole number of rows": _10,
    "10: over 4,096 rows": _10,
    "10: name past the byte table": _10,
    "10: name length": _10,
    "10: name byte": _10,
    "mode 11": _20,
    "22": _22,
    "22: last row not whole": _22,
    "limit: path of 129 connections": _PLACES,
}

# Where the second entry takes two names as one, and the ported one does not. Only lists of the
# second entry meet these.
RULES_IGNORING_CASE = {
    "ignoring case: child in another case": _FOLDED,
    "ignoring case: children in the wanted case and in another": _FOLDED,
    "ignoring case: child in another case hides array children": _FOLDED,
    "ignoring case: child in another case, wanted with [": _FOLDED,
    "ignoring case: step towards the source": _FOLDED,
    "ignoring case: step towards the destination": _FOLDED,
    "ignoring case: first found child in another case": _FOLDED,
}

# What a limit does that is named. Only lists and refusals at other limits than 20 meet these.
RULES_OF_LIMITS = {
    "19": _19,
    "19: the first above 64": _19,
    "19: a limit of over 32 bits": _19,
    "19: after 1 to 5": _19,
    "19: before 6 to 16": _19,
    "limit: chain cut": _LIMIT,
    "limit: chain of exactly as many steps": _LIMIT,
    "limit: chain of over 20 steps, whole": _LIMIT,
    "limit: chain of over 20 steps, cut": _LIMIT,
    "limit: several steps beyond the last": _LIMIT,
    "limit: step beyond the last in another case": _LIMIT,
    "limit: row of a path of one, with a step beyond": _LIMIT,
    "limit: cut towards the source alone": _LIMIT,
    "limit: cut towards the destination alone": _LIMIT,
    "limit: cut towards both": _LIMIT,
    "limit: whole chain beside a cut one": _LIMIT,
    "limit: path of over 41 connections": _PLACES,
    "limit: past every chain": _TWO_LIMITS,
    "limit: longest chain of exactly as many steps": _TWO_LIMITS,
    "limit: step beyond in one chain alone": _TWO_LIMITS,
}

marks = collections.Counter()


def mark(rule, when=True):
    if when:
        marks[rule] += 1


# ---------------------------------------------------------------------------
# Letters and fields. A change of the sheet's form edits the table FIELDS; all
# else goes by it.

# A field has a name here; it holds one of the things below; it may be missing
# or not; it takes so many columns of its line and so many numbers of its row.
Field = collections.namedtuple("Field", "name holds may_be_missing columns numbers")

# A name number; a row of T or of U, by the row's holder kind; any number but that
# of a missing field; any number of 64 bits. A letter stands for a row of its table,
# (word, n) for a number 0 to n.
NAME, HOLDER, ANY, LONG = "name number", "holder row", "any number", "long number"
KIND = ("kind", 9)
FLAG = ("flag", 1)


# "decimal fields of six columns"; "lent tables of 32-bit numbers, one row per sheet
# line"
def field(name, holds, columns=6, numbers=1):
    """A ? behind the name, as in 01, means that the field may be missing."""
    return Field(name.rstrip("?"), holds, name.endswith("?"), columns, numbers)


# "(package?, type?, implementation?)"
REFERENCE = ("_package", "_type", "_implementation")


def reference(word):
    return [field(word + part + "?", NAME) for part in REFERENCE]


# "Letters stand in this order"; "The `C` line gains a field after pattern, the place
# among siblings." (02, i) "The third field of `C` becomes twenty columns for 64 bits";
# "In the tables three columns hold it" (02, ii) "Add a letter `M` after `R`: name, owner
# component, initial 0 or 1." (02, xi)
FIELDS = {
    "C": [field("name", NAME), field("parent?", "C"),
          field("array_index?", LONG, columns=20, numbers=3), field("package", NAME),
          field("type", NAME), field("pattern?", NAME), field("place", ANY)],
    "F": [field("name", NAME), field("owner", "C"), field("kind", KIND)],
    "X": [field("name", NAME), field("owner", "C"), field("kind", ("kind", 4)),
          field("source_subcomponent?", NAME), field("source_feature?", NAME),
          field("destination_subcomponent?", NAME), field("destination_feature?", NAME)],
    "P": [field("name", NAME)],
    "I": [field("package", "P"), field("name", NAME)],
    "T": [field("package", "P"), field("name", NAME), field("private", FLAG)],
    "Q": [field("package", "P"), field("type", NAME), field("implementation", NAME),
          field("private", FLAG)],
    "U": [field("package", "P"), field("name", NAME), field("private", FLAG)]
         + reference("extends") + reference("inverse"),
    "E": [field("holder_kind", ("holder kind", 1)), field("holder", HOLDER), field("name", NAME),
          field("kind", KIND), field("direction?", ("direction", 2))] + reference("classifier"),
    "R": [field("package", "P"), field("what", ("what", 2)), field("alias", NAME),
          field("original_package", NAME), field("original_name?", NAME)],
    "M": [field("name", NAME), field("owner", "C"), field("initial", FLAG)],
}
LETTERS = "N" + "".join(FIELDS)

# The rows of each letter by the names of their fields, a missing one None. A row of
# N says where in the byte table its name begins, and how long it is.
ROWS = {letter: collections.namedtuple(letter, [form.name for form in forms])
        for letter, forms in FIELDS.items()}
ROWS["N"] = collections.namedtuple("N", "offset length")

# How many numbers a row has, and how many bytes a line without its LF.
WIDTH = {letter: sum(form.numbers for form in forms) for letter, forms in FIELDS.items()}
WIDTH["N"] = len(ROWS["N"]._fields)
LINE = {letter: 1 + sum(form.columns for form in forms) for letter, forms in FIELDS.items()}

# A C line whose array index has six columns, as in 01, and not twenty.
LINE_WITH_SHORT_INDEX = LINE["C"] - (20 - 6)

# "a missing field as 4,294,967,295"
MISSING = 4294967295

# "18,446,744,073,709,551,615 is taken" (02, ii)
LARGEST_LONG = 18446744073709551615
LOW_BITS = 0xFFFFFFFF

# "The traced listing's limit becomes an argument, 0 to 64; 20 holds wherever none is named."
# (02, ix)
LIMIT = 20
LARGEST_LIMIT = 64

# "A listing's row has places for 41 connections of its path"; "A row of either listing then has
# places for 129 connections" (02, ix)
PLACES_AT_20 = 41
PLACES = 129


# "In the tables three columns hold it, present 0 or 1, high 32 bits, low 32 bits, so no
# number stands for missing" (02, ii)
def numbers_of(form, value):
    """The numbers of the row that a field takes. A tuple is these numbers themselves."""
    if isinstance(value, tuple):
        return list(value)
    if form.holds == LONG:
        return [0, 0, 0] if value is None else [1, value >> 32, value & LOW_BITS]
    return [MISSING if value is None else value]


def value_of(form, numbers):
    """The value of a field with these numbers; None where it is missing. A long number that
    these cannot stand for is the tuple of them."""
    if form.holds == LONG:
        present, high, low = numbers
        if present == 1:
            return high << 32 | low
        return None if present == high == low == 0 else tuple(numbers)
    return None if form.may_be_missing and numbers == [MISSING] else numbers[0]


def row_of(letter, numbers):
    """The row that has these numbers."""
    if letter == "N":
        return ROWS["N"](*numbers)
    values, at = [], 0
    for form in FIELDS[letter]:
        values.append(value_of(form, numbers[at:at + form.numbers]))
        at += form.numbers
    return ROWS[letter](*values)


def numbers_of_row(letter, values):
    """The numbers of a row with these values of its fields."""
    if letter == "N":
        return list(values)
    pairs = zip(FIELDS[letter], values)
    return [number for form, value in pairs for number in numbers_of(form, value)]


def reference_of(row, word):
    """The three fields of a reference: package, type, implementation."""
    return tuple(getattr(row, word + part) for part in REFERENCE)


def ends_of(row):
    """Of an X row: source subcomponent and feature, destination subcomponent and feature."""
    return (row.source_subcomponent, row.source_feature,
            row.destination_subcomponent, row.destination_feature)


# "The table is the order of checks."; "refused as 16, checked after 7." (02, i) "refused as
# 20, after the tables' checks" (02, xi) "refused as 22, after the tables' checks and 21." (02,
# xiii) "refused as 19, after 5 and before 10." (02, ix): the numbers of each place. A selection
# of modes has 11 and 14 too, after 20.
REFUSALS = {"sheet": [1], "line": [2, 3, 4, 5], "limit": [19], "tables": [10, 6, 7, 16, 8, 9],
            "modes": [20], "links": [22], "lists": [13, 11, 14, 12], "text": [15]}
BEFORE_LISTINGS = REFUSALS["sheet"] + REFUSALS["line"] + REFUSALS["limit"] + REFUSALS["tables"]

Refusal = collections.namedtuple("Refusal", "number letter place")
Tables = collections.namedtuple("Tables", "bytes_table tables")


def good_name_byte(byte):
    """ "each 09 or 20 to 7E hexadecimal" """
    return byte == 0x09 or 0x20 <= byte <= 0x7E


# "Hashing becomes a scan for equal folded names (only A to Z fold)."
def fold(name):
    return name.lower()  # on bytes: A to Z only


# ---------------------------------------------------------------------------
# The reader: sheet and lines.

NUMBER = re.compile(rb" *(0|[1-9][0-9]*)\Z")


# "a letter, then decimal fields of six columns, right-justified with spaces, no
# leading zeros. A lone `-` in the last column means missing, allowed only in
# fields marked ?." "18,446,744,073,709,551,615 is taken; one more is refused by the
# existing 4." (02, ii)
def read_field(columns, form):
    """The field's numbers of the row, or None where it is against the rules."""
    if columns.lstrip(b" ") == b"-":
        mark("4: missing where not allowed", not form.may_be_missing)
        return numbers_of(form, None) if form.may_be_missing else None
    found = NUMBER.match(columns)
    if not found:
        mark_no_number(columns, form)
        return None
    value = int(found.group(1))
    if form.holds == LONG and value > LARGEST_LONG:
        mark("4: array index too large")
        mark("4: array index 18,446,744,073,709,551,616", value == LARGEST_LONG + 1)
        return None
    return numbers_of(form, value)


def mark_no_number(columns, form):
    """For the marks only: why a field is no number."""
    digits = columns.lstrip(b" ")
    zero = digits.isdigit() and digits.startswith(b"0")
    mark("4: leading zero" if zero else "4: field is no right-justified number")
    if form.holds == LONG:
        mark("4: array index with a leading zero" if zero
             else "4: array index, - not in the last column" if columns.strip(b" ") == b"-"
             else "4: array index is no right-justified number")


def read_row(letter, line):
    """The numbers of a row, or None where a field is against the rules."""
    row, at = [], 1
    for form in FIELDS[letter]:
        numbers = read_field(line[at:at + form.columns], form)
        if numbers is None:
            return None
        row.extend(numbers)
        at += form.columns
    return row


# "`N`: one space, then a name of 1 to 63 bytes, each 09 or 20 to 7E hexadecimal."
def read_name(line):
    if line[1:2] != b" ":
        mark("4: N without its space")
        return None
    name = line[2:]
    if not 1 <= len(name) <= 63:
        mark("4: name length")
        return None
    if not all(good_name_byte(byte) for byte in name):
        mark("4: name byte")
        return None
    return name


# "over 16,384 bytes"; "Lines go singly through 2 to 5, up to the first bad one";
# "The place is the line from 1". A lent table holds the whole rows that fit.
def read_sheet(sheet, bytes_room, rooms):
    """Tables with the used numbers of each table, or a Refusal of 1 to 5."""
    if len(sheet) > 16384:
        mark("1: sheet too long")
        return Refusal(1, "-", 0)
    bytes_table = []
    tables = {letter: [] for letter in LETTERS}
    lines = sheet.split(b"\n")
    last = lines.pop()  # what stands behind the last LF
    before = 0
    for place, line in enumerate(lines, 1):
        # 2: "letter unknown"
        letter = chr(line[0]) if line else ""
        if letter not in LETTERS or not letter:
            mark("2: letter unknown" if line else "2: empty line")
            return Refusal(2, "-", place)
        # 3: "letter earlier in order than the line before's"
        order = LETTERS.index(letter)
        if order < before:
            mark("3: letter out of order")
            return Refusal(3, "-", place)
        before = order
        # 4: "length, field or name against the sheet's rules"
        if letter == "N":
            name = read_name(line)
            if name is None:
                return Refusal(4, "-", place)
            row = [len(bytes_table), len(name)]
        else:
            if len(line) != LINE[letter]:
                mark("4: length of the line")
                mark("4: C line without its place",
                     letter == "C" and len(line) == LINE["C"] - FIELDS["C"][-1].columns)
                mark("4: C line with an index of six columns",
                     letter == "C" and len(line) == LINE_WITH_SHORT_INDEX)
                return Refusal(4, "-", place)
            row = read_row(letter, line)
            if row is None:
                return Refusal(4, "-", place)
        # 5: "that letter's lent table, or at `N` the byte table, has no place"
        room = rooms.get(letter, 0) // WIDTH[letter]
        if len(tables[letter]) // WIDTH[letter] >= room:
            mark("5: N rows" if letter == "N" else "5: rows of another letter")
            return Refusal(5, "-", place)
        if letter == "N":
            if len(bytes_table) + len(name) > bytes_room:
                mark("5: byte table")
                return Refusal(5, "-", place)
            bytes_table.extend(name)
        tables[letter].extend(row)
    # 2: "last line without LF"
    if last:
        mark("2: last line without LF")
        return Refusal(2, "-", len(lines) + 1)
    return Tables(bytes_table, tables)


# ---------------------------------------------------------------------------
# The limit: refusal 19.

# "A limit above 64 is refused as 19, after 5 and before 10." (02, ix)
def is_past_64(limit):
    """Is this limit refused?"""
    mark("19", limit > LARGEST_LIMIT)
    mark("19: the first above 64", limit == LARGEST_LIMIT + 1)
    mark("19: a limit of over 32 bits", limit > LOW_BITS)
    return limit > LARGEST_LIMIT


# ---------------------------------------------------------------------------
# The tables: refusals 10, 6, 7, 16, 8, 9, in this order.

def rows_of(tables, letter):
    numbers = tables.get(letter, [])
    width = WIDTH[letter]
    return [row_of(letter, numbers[at:at + width]) for at in range(0, len(numbers), width)]


# "The table is the order of checks." "6 to 10 each go over all tables in letter
# order." "letter and lowest bad row (where two rows clash, the later)" "refused as 16,
# checked after 7." (02, i)
def check_tables(bytes_table, tables):
    """(number, letter, row) of the refusal, or None where the model is accepted."""
    found = check_10(bytes_table, tables)
    if found:
        return found
    rows = {letter: rows_of(tables, letter) for letter in LETTERS}
    names = [bytes(bytes_table[offset:offset + length]) for offset, length in rows["N"]]
    return (check_6(rows) or check_7(rows) or check_16(rows, names) or check_8(rows)
            or check_9(rows, names))


# "in this order: table of no whole number of rows (row 0), over 4,096 rows (row
# 4,096), name past the byte table or against the byte or length rule"
def check_10(bytes_table, tables):
    for letter in LETTERS:
        if len(tables.get(letter, [])) % WIDTH[letter] != 0:
            mark("10: no whole number of rows")
            return Refusal(10, letter, 0)
    for letter in LETTERS:
        if len(tables.get(letter, [])) // WIDTH[letter] > 4096:
            mark("10: over 4,096 rows")
            return Refusal(10, letter, 4096)
    for row, (offset, length) in enumerate(rows_of(tables, "N")):
        if offset + length > len(bytes_table):
            mark("10: name past the byte table")
        elif not 1 <= length <= 63:
            mark("10: name length")
        elif not all(good_name_byte(byte) for byte in bytes_table[offset:offset + length]):
            mark("10: name byte")
        else:
            continue
        return Refusal(10, "N", row)
    return None


# "a row or name number past its table, or a kind, flag, direction or what past
# its range"; "In the tables a missing place is the existing 6." (02, i) "present above
# 1, or 0 with other bits set, is the existing 6." (02, ii)
def check_6(rows):
    for letter, forms in FIELDS.items():
        for row, values in enumerate(rows[letter]):
            for form, value in zip(forms, values):
                fault = against_6(form, value, values, rows)
                if fault:
                    mark("6: " + fault)
                    return Refusal(6, letter, row)
    return None


def against_6(form, value, values, rows):
    """Where the field of a row may not have this value: why, in a word."""
    if value is None:
        return None
    if form.holds == LONG:
        return against_long(value) if isinstance(value, tuple) else None
    word, end = end_of(form, values, rows)
    return word if value >= end else None


def against_long(numbers):
    """Why these three stand for no long number and for no missing one."""
    present, high, _ = numbers
    if present > 1:
        return "present above 1"
    return "high bits of a missing index" if high else "low bits of a missing index"


def end_of(form, values, rows):
    """What a field holds in a word, and the first number past it."""
    holds = form.holds
    if isinstance(holds, tuple):
        word, last = holds
        return word, last + 1
    if holds == NAME:
        return NAME, len(rows["N"])
    if holds == ANY:
        return "missing " + form.name, MISSING
    if holds == HOLDER:  # the holder kind stands before it, and was good
        return HOLDER, len(rows["T" if values.holder_kind == 0 else "U"])
    return {"C": "component row", "P": "package row"}[holds], len(rows[holds])


# "no component 0, or it has a parent, or another's parent is missing or not a
# smaller row"
def check_7(rows):
    if not rows["C"]:
        mark("7: no component 0")
        return Refusal(7, "C", 0)
    for row, component in enumerate(rows["C"]):
        if row == 0:
            fault = None if component.parent is None else "component 0 has a parent"
        elif component.parent is None:
            fault = "parent missing"
        else:
            fault = None if component.parent < row else "parent not smaller"
        if fault:
            mark("7: " + fault)
            mark("7: before 16", any(later < row for _, later in clashes(rows["C"])))
            return Refusal(7, "C", row)
    return None


def clashes(components):
    """Of each row that has the parent and the place of an earlier one: that one, and the
    row. The root has no siblings."""
    first, found = {}, []
    for row, component in enumerate(components):
        if component.parent is None:
            continue
        earlier = first.setdefault((component.parent, component.place), row)
        if earlier != row:
            found.append((earlier, row))
    return found


# "Two children of one parent with the same place are refused as 16, checked after 7."
# (02, i) "letter and lowest bad row (where two rows clash, the later)"
def check_16(rows, names):
    components, found = rows["C"], clashes(rows["C"])
    if not found:
        children = components[1:]
        mark("equal places of two parents", len({child.place for child in children}) < len(children))
        mark("root's place is a child's",
             any(child.parent == 0 and child.place == components[0].place for child in children))
        return None
    earlier, row = found[0]
    mark("16: places")
    mark("16: not with the sibling before",
         any(between.parent == components[row].parent for between in components[earlier + 1:row]))
    mark("16: lowest of several", len(found) > 1)
    mark("16: inside another clash", any(other < earlier for other, _ in found))
    mark("16: before 8 or 9", bool(unmarked(check_8, rows) or unmarked(check_9, rows, names)))
    return Refusal(16, "C", row)


def unmarked(check, *given):
    """For the marks only: what a check finds, without the marks that it makes."""
    kept = marks.copy()
    found = check(*given)
    marks.clear()
    marks.update(kept)
    return found


# "a reference with a package or implementation and no type"
def reference_against_8(row, word):
    package, type_name, implementation = reference_of(row, word)
    if type_name is not None:
        return False
    mark("8: package without type", package is not None)
    mark("8: implementation without type", package is None and implementation is not None)
    return package is not None or implementation is not None


# "an end with a subcomponent and no feature; a reference with a package or
# implementation and no type; a rename of what = 0 with an original name, or 1 or 2
# without"
def check_8(rows):
    for row, values in enumerate(rows["X"]):
        source_sub, source, destination_sub, destination = ends_of(values)
        if (source_sub is not None and source is None) or \
                (destination_sub is not None and destination is None):
            mark("8: end without feature")
            return Refusal(8, "X", row)
    for row, values in enumerate(rows["U"]):
        if reference_against_8(values, "extends") or reference_against_8(values, "inverse"):
            return Refusal(8, "U", row)
    for row, values in enumerate(rows["E"]):
        if reference_against_8(values, "classifier"):
            return Refusal(8, "E", row)
    for row, values in enumerate(rows["R"]):
        if values.what == 0 and values.original_name is not None:
            mark("8: package rename with a name")
            return Refusal(8, "R", row)
        if values.what != 0 and values.original_name is None:
            mark("8: other rename without a name")
            return Refusal(8, "R", row)
    return None


# "two P rows, or two rows of one package in T, Q, U or one kind of R, with equal
# folded keys (Q: the pair)": the fields that are equal as they are, and the names
# that are the key.
KEYS = {
    "P": ([], ["name"]),
    "T": (["package"], ["name"]),
    "Q": (["package"], ["type", "implementation"]),
    "U": (["package"], ["name"]),
    "R": (["package", "what"], ["alias"]),
}


def check_9(rows, names):
    folded = [fold(name) for name in names]
    words = {"P": "packages", "T": "component types", "Q": "implementations",
             "U": "group types", "R": "renames"}
    for letter, (equal, key) in KEYS.items():
        seen = set()
        for row, values in enumerate(rows[letter]):
            one = tuple(getattr(values, field) for field in equal)
            one += tuple(folded[getattr(values, field)] for field in key)
            if one in seen:
                mark("9: " + words[letter])
                return Refusal(9, letter, row)
            seen.add(one)
    return None


# ---------------------------------------------------------------------------
# An accepted model. "Child, feature, connection and import lists become all rows
# naming the owner, ascending"; children by their places.

# "the children of a cabinet must come in the order of the drawing." "the place among
# siblings" (02, i)
def by_place(components, siblings):
    """The rows of siblings, given ascending, in the order of their places."""
    ordered = sorted(siblings, key=lambda row: components[row].place)
    places = [components[row].place for row in ordered]
    mark("children by place", ordered != siblings)
    mark("places with gaps", any(after - before > 1 for before, after in zip(places, places[1:])))
    mark("place of six digits", len(places) > 1 and places[-1] > 99999)
    return ordered


class Model:
    def __init__(self, bytes_table, tables):
        rows = {letter: rows_of(tables, letter) for letter in LETTERS}
        self.rows = rows
        self.names = [bytes(bytes_table[offset:offset + length]) for offset, length in rows["N"]]

        def name(number):
            return None if number is None else self.names[number]

        self.name = name
        self.children = collections.defaultdict(list)
        for row, values in enumerate(rows["C"]):
            self.children[values.parent].append(row)
        for parent, siblings in self.children.items():
            self.children[parent] = by_place(rows["C"], siblings)
        self.features = collections.defaultdict(list)
        for row, values in enumerate(rows["F"]):
            self.features[values.owner].append(row)
        self.connections = collections.defaultdict(list)
        for row, values in enumerate(rows["X"]):
            self.connections[values.owner].append(row)
        self.modes = collections.defaultdict(list)
        for row, values in enumerate(rows["M"]):
            self.modes[values.owner].append(row)
        self.declared = collections.defaultdict(list)
        for row, values in enumerate(rows["E"]):
            self.declared[values.holder_kind, values.holder].append(row)
        self.imports = collections.defaultdict(list)
        for values in rows["I"]:
            self.imports[values.package].append(name(values.name))

        # By folded keys.
        self.packages = {fold(name(values.name)): row for row, values in enumerate(rows["P"])}
        self.types = {(values.package, fold(name(values.name))): row
                      for row, values in enumerate(rows["T"])}
        self.implementations = {
            (values.package, fold(name(values.type)), fold(name(values.implementation))): row
            for row, values in enumerate(rows["Q"])}
        self.groups = {(values.package, fold(name(values.name))): row
                       for row, values in enumerate(rows["U"])}
        self.renames = {(values.package, values.what, fold(name(values.alias))):
                        (name(values.original_package), name(values.original_name))
                        for values in rows["R"]}

        # Answers already given, so that equal questions are asked once.
        self.links = None
        self.found_children = {}
        self.found_steps = {}
        self.chain_counts = {}
        self.longest = {}
        self.visits = {}

    def reference(self, row, word):
        """(package or None, type, implementation or None), or None where missing."""
        package, type_name, implementation = map(self.name, reference_of(row, word))
        return None if type_name is None else (package, type_name, implementation)


# ---------------------------------------------------------------------------
# Children by links. What follows asks for children by a scan, `Model.children`, as before:
# "No other answer changes." (02, xiii)

Links = collections.namedtuple("Links", "first_child next_sibling")

# A row of the table has so many numbers.
LINKS_WIDTH = len(Links._fields)

# What the programs lend, in rows: "96 of each other letter", so of C too.
CONLIST_LINKS = 96


# "build once a first child per component and a next sibling per child" (02, xiii), by their
# places: "the children of a cabinet must come in the order of the drawing." (02, i)
def links_of(model):
    """The Links of each component, what is missing None. The root is nobody's child."""
    if model.links is None:
        components = model.rows["C"]

        def first_of(parent, least=0):
            """The child of least place, of those that have this parent and this place or a later one."""
            rows = [row for row, values in enumerate(components)
                    if values.parent == parent and values.place >= least]
            return min(rows, key=lambda row: components[row].place, default=None)

        model.links = [Links(first_of(row),
                             None if values.parent is None else first_of(values.parent, values.place + 1))
                       for row, values in enumerate(components)]
        mark_links(model, model.links)
    return model.links


# "and walk these." (02, xiii)
def walk(links, owner):
    """The children of a component as a walk of the links comes to them."""
    child = links[owner].first_child
    while child is not None:
        yield child
        child = links[child].next_sibling


# "One of fewer whole rows than components is refused as 22" (02, xiii)
def lacks_links(model, rows_room):
    """Has a link table of so many whole rows too few of them?"""
    lacks = rows_room < len(links_of(model))
    mark("22", lacks)
    return lacks


# "The link table is an output, its row the first child and the next sibling, missing as in
# 01." (02, xiii) "After success unused output is zero." "an output holds the whole rows in it."
def link_table(model, length):
    """What a call that gives its lists leaves in a link table of so many numbers that is lent
    for it, or the number of the refusal. After any refusal of the call all of them are 0."""
    if lacks_links(model, length // LINKS_WIDTH):
        mark("22: last row not whole", length == len(model.links) * LINKS_WIDTH - 1)
        return 22
    used = [MISSING if row is None else row for links in links_of(model) for row in links]
    return used + [0] * (length - len(used))


def mark_links(model, links):
    """For the marks only: what the components are like, and which of them are linked."""
    components = model.rows["C"]
    mark("links: a single component", len(links) == 1)
    for row, (first, following) in enumerate(links):
        mark("links: component without children", first is None)
        if first is not None:
            children = model.children[row]
            mark("links: one child" if len(children) == 1 else "links: several children")
            mark("links: children below the root", row > 0)
            mark("links: first child is not the lowest row of its owner's", first != min(children))
        parent, place = components[row].parent, components[row].place
        behind = [other for other in components if other.place > place]
        if parent is None:
            mark("links: root has no next sibling", bool(behind))
            continue
        others = [other.place for other in behind if other.parent not in (None, parent)]
        if following is None:
            mark("links: last child, with another owner's behind its place", bool(others))
            continue
        mark("links: next sibling of a smaller row", following < row)
        mark("links: next sibling beyond a row between",
             any(row < other < following for other in model.children[parent]))
        mark("links: place of another owner's child between",
             any(other < components[following].place for other in others))


# ---------------------------------------------------------------------------
# Names and resolution.

# "In one package: with an implementation name only Q; otherwise T, then U. A private
# hit from outside gives nothing; U is not tried after a private T."
def in_one_package(model, package_key, type_name, implementation, own):
    """(letter, row, row of its package) or None."""
    package = model.packages.get(package_key)
    if package is None:
        return None
    key = fold(type_name)
    type_row = model.types.get((package, key))
    group_row = model.groups.get((package, key))

    if implementation is not None:
        row = model.implementations.get((package, key, fold(implementation)))
        mark("implementation name asks only Q", type_row is not None or group_row is not None)
        if row is None:
            return None
        letter, spelled = "Q", model.rows["Q"][row].type
    elif type_row is not None:
        letter, row, spelled = "T", type_row, model.rows["T"][type_row].name
    elif group_row is not None:
        letter, row, spelled = "U", group_row, model.rows["U"][group_row].name
    else:
        return None

    private = model.rows[letter][row].private
    if private and not own:
        mark("private " + letter + " from outside gives nothing")
        mark("U not tried after a private T", letter == "T" and group_row is not None)
        return None
    mark("private hit from the own package", private)
    mark("key found in another spelling", model.name(spelled) != type_name)
    mark("T before U", letter == "T" and group_row is not None)
    mark("U found", letter == "U")
    return letter, row, package


# "`resolve_classifier`: a reference with a package is looked up there, after at most
# one replacement by the asking package's package renames. Without a package: own
# package, then classifier rename, then (no implementation name) group rename, then
# imports in order. A rename's target, implementation name kept, is a reference with a
# package, asked from the same package. A matching rename ends the search, found or
# not. "Own" means equal keys after replacement."
def resolve_classifier(model, asking, reference):
    package, type_name, implementation = reference
    asking_key = fold(asking)
    asking_row = model.packages.get(asking_key)  # None where it is no package

    if package is not None:
        key = fold(package)
        rename = model.renames.get((asking_row, 0, key))
        if rename is not None:
            before, key = key, fold(rename[0])
            mark("package rename replaces", before != key)
            mark("package rename applied once",
                 model.renames.get((asking_row, 0, key), rename) != rename)
            mark("package rename wins over a package of that name",
                 before != key and before in model.packages)
            mark("own after replacement", (before == asking_key) != (key == asking_key))
        found = in_one_package(model, key, type_name, implementation, key == asking_key)
        mark("reference with a package is looked up only there", found is None and
             ((asking_row, 1, fold(type_name)) in model.renames
              or (asking_row, 2, fold(type_name)) in model.renames
              or imports_have(model, asking_row, type_name, implementation)))
        return found

    found = in_one_package(model, asking_key, type_name, implementation, True)
    classifier_rename = model.renames.get((asking_row, 1, fold(type_name)))
    group_rename = model.renames.get((asking_row, 2, fold(type_name)))
    if found is not None:
        mark("own package first", bool(classifier_rename or group_rename)
             or imports_have(model, asking_row, type_name, implementation))
        return found

    rename = None
    if classifier_rename is not None:
        rename = classifier_rename
        mark("classifier rename")
        mark("classifier rename keeps the implementation name", implementation is not None)
        mark("classifier rename before group rename", group_rename is not None)
    elif group_rename is not None:
        if implementation is None:
            rename = group_rename
            mark("group rename")
        else:
            mark("group rename not with an implementation name")
    if rename is not None:
        mark("rename target through a package rename",
             (asking_row, 0, fold(rename[0])) in model.renames)
        found = resolve_classifier(model, asking, (rename[0], rename[1], implementation))
        mark("rename that finds nothing ends the search",
             found is None and imports_have(model, asking_row, type_name, implementation))
        return found

    for imported in model.imports[asking_row]:
        mark("import is not replaced by a package rename",
             (asking_row, 0, fold(imported)) in model.renames)
        found = in_one_package(model, fold(imported), type_name, implementation, False)
        if found is not None:
            mark("import found")
            return found
        there = is_in_package(model, imported, type_name, implementation)
        mark("import passed over, private" if there else "import passed over, not there")
    return None


def is_in_package(model, package, type_name, implementation):
    """For the marks only: is there a hit, private or not?"""
    row, key = model.packages.get(fold(package)), fold(type_name)
    if implementation is not None:
        return (row, key, fold(implementation)) in model.implementations
    return (row, key) in model.types or (row, key) in model.groups


def imports_have(model, asking_row, type_name, implementation):
    """For the marks only: is there a hit in any import?"""
    return any(is_in_package(model, imported, type_name, implementation)
               for imported in model.imports[asking_row])


# ---------------------------------------------------------------------------
# Group expansion.

MAX_DEPTH = 10
MAX_VISITS = 65536

# What the visit of a reference makes: either a deeper visit or a feature.
Deeper = collections.namedtuple("Deeper", "reference nested_name turns")
Own = collections.namedtuple("Own", "row name key kind direction")
Visit = collections.namedtuple("Visit", "count names package parts")
Feature = collections.namedtuple("Feature", "name kind direction prefix number")


# "inverse_of, where present, replaces everything of the type itself and turns the
# inverse flag. Otherwise first the extended type's features, then the own. A nested
# group with a classifier is expanded with its name joined to the prefix by a dot;
# without one it is listed itself."
def parts_of_group(model, group):
    values = model.rows["U"][group]
    extends, inverse_of = model.reference(values, "extends"), model.reference(values, "inverse")
    declared = model.declared[1, group]
    if inverse_of is not None:
        mark("inverse_of hides own features", bool(declared) or extends is not None)
        return [Deeper(inverse_of, None, True)]
    parts = []
    if extends is not None:
        parts.append(Deeper(extends, None, False))
    for row in declared:
        feature = model.rows["E"][row]
        name, classifier = model.name(feature.name), model.reference(feature, "classifier")
        if feature.kind == 8 and classifier is not None:
            mark("nested group with a classifier")
            parts.append(Deeper(classifier, name, False))
        else:
            mark("nested group without one", feature.kind == 8)
            parts.append(Own(row, name, fold(name), feature.kind, feature.direction))
    return parts


# "A visit is each entry of `expand_from_ref`, those past the depth included." "Depth is
# 0, and one more in each visit made by a visit (inverse_of, extends, nested group);
# above 10, and for a reference to no group type, nothing comes. References inside a
# group ask from the package it was found in."
def visit(model, asking, reference, depth):
    """What one visit gives: its count of visits, itself included; how often each
    folded last name comes; the package found in; its parts in order. Equal visits
    are counted once and kept."""
    key = asking, reference, depth
    if key in model.visits:
        return model.visits[key]
    package, parts = None, []
    if depth > MAX_DEPTH:
        mark("depth above 10")
    else:
        found = resolve_classifier(model, asking, reference)
        if found is None or found[0] != "U":
            mark("reference to no group type")
        else:
            package = model.name(model.rows["P"][found[2]].name)
            parts = parts_of_group(model, found[1])
    count, names = 1, collections.Counter()
    for part in parts:
        if isinstance(part, Own):
            names[part.key] += 1
        else:
            mark("references inside ask from the package found in", fold(package) != fold(asking))
            deeper = visit(model, package, part.reference, depth + 1)
            count += deeper.count
            mark("extends before own", part is parts[0] and part.nested_name is None
                 and not part.turns and bool(deeper.names) and len(parts) > 1)
            for name, times in deeper.names.items():
                names[name] += times
    model.visits[key] = Visit(count, names, package, parts)
    return model.visits[key]


# "Inverse swaps in and out."
def turned(direction, inverse):
    if inverse and direction in (0, 1):
        mark("inverse swaps in and out")
        return 1 - direction
    return direction


def features(model, asking, reference, wanted, inverse=False, prefix=None, depth=0):
    """The features of a reference in order, of them only those whose folded last
    name is wanted; a visit that gives none of those is not walked."""
    this = visit(model, asking, reference, depth)
    if wanted.isdisjoint(this.names):
        return
    for part in this.parts:
        if isinstance(part, Own):
            if part.key in wanted:
                number = model.rows["E"][part.row].name
                yield Feature(part.name, part.kind, turned(part.direction, inverse), prefix, number)
            continue
        inside = prefix
        if part.nested_name is not None:
            inside = part.nested_name if prefix is None else prefix + b"." + part.nested_name
            mark("prefix of two or more names", prefix is not None)
        mark("inverse_of of an inverse turns back", part.turns and inverse)
        yield from features(model, this.package, part.reference, wanted,
                            inverse != part.turns, inside, depth + 1)


# "The number of visits is part of the answer and equals the definition's count. Over
# 65,536 the expansion stops: 13, count 0, no features."
def expansion(model, asking, type_name):
    """(0 or 13, count of visits, features) of a bare type name asked from a package."""
    reference = (None, type_name, None)
    this = visit(model, asking, reference, 0)
    if this.count > MAX_VISITS:
        return 13, 0, []
    return 0, this.count, list(features(model, asking, reference, set(this.names)))


# ---------------------------------------------------------------------------
# Children, pattern, steps, chains. What asks for a child or a step says for which entry it asks:
# "It gives both listings; later changes go to both entries, and all else uses the ported one,
# which keeps the Rust's reading." (02, vi)

# "in which tracing compares features folded and the first child rule compares names folded."
# (02, vi) The ported entry compares both byte by byte.
def taken_as_one(one, other, ignore_case):
    """Are these two names one to this entry?"""
    return fold(one) == fold(other) if ignore_case else one == other


# "`base_name_of` hands back a part of the caller's own bytes."
def base_name_of(name):
    return name.split(b"[", 1)[0]


# "`find_children_by_name`: byte-equal names; if none and the wanted name has no `[`,
# children with an array index whose name up to the first `[` is equal folded." "the first
# child rule compares names folded" (02, vi): that of whole names, the first of the two.
def find_children_by_name(model, owner, wanted, ignore_case):
    key = owner, wanted, ignore_case
    if key in model.found_children:
        return model.found_children[key]
    equal, array, unindexed = [], [], []
    for child in model.children[owner]:
        component = model.rows["C"][child]
        if taken_as_one(model.name(component.name), wanted, ignore_case):
            equal.append(child)
        elif fold(base_name_of(model.name(component.name))) == fold(wanted):
            (unindexed if component.array_index is None else array).append(child)
    if equal:
        mark_whole_name(model, wanted, equal, bool(array) and b"[" not in wanted)
        found = equal
    elif b"[" in wanted:
        children = [model.rows["C"][child] for child in model.children[owner]]
        mark("wanted name with [ has no array rule",
             any(fold(base_name_of(model.name(component.name))) == fold(base_name_of(wanted))
                 and component.array_index is not None for component in children))
        found = []
    else:
        elements = [model.rows["C"][child] for child in array]
        mark("array rule by base name", bool(array))
        mark("array rule with other case",
             any(base_name_of(model.name(component.name)) != wanted for component in elements))
        mark("array rule needs an array index", bool(unindexed))
        for component in elements:
            mark_index(component.array_index)
        found = array
    mark("no child found", not found)
    model.found_children[key] = found
    return found


def mark_whole_name(model, wanted, found, hides):
    """For the marks only: how those that are found by their whole name are spelled, and whether
    they hide array children."""
    spelled = [model.name(model.rows["C"][child].name) == wanted for child in found]
    mark("byte-equal child", any(spelled))
    mark("byte-equal child hides array children", any(spelled) and hides)
    mark("ignoring case: child in another case", not all(spelled))
    mark("ignoring case: children in the wanted case and in another", any(spelled) and not all(spelled))
    mark("ignoring case: child in another case hides array children", not any(spelled) and hides)
    mark("ignoring case: child in another case, wanted with [", not all(spelled) and b"[" in wanted)


def mark_index(index):
    """For the marks only: an index that is not like most."""
    mark("array index 0 is an index", index == 0)
    mark("array index of over six digits", index > 999999)
    mark("array index 4,294,967,295", index == LOW_BITS)
    mark("array index of 2^32 or more", index > LOW_BITS)
    mark("array index with low bits 0", index > LOW_BITS and index & LOW_BITS == 0)
    mark("array index of twenty digits", index >= 10 ** 19)
    mark("array index 18,446,744,073,709,551,615", index == LARGEST_LONG)


# "`parse_connection_pattern` drops round brackets, commas, spaces, tabs, and compares
# folded with the fixed bytes "one_to_one"; all else, and missing, is all to all."
def says_one_to_one(text):
    bare = bytes(byte for byte in text if byte not in b"(), \t")
    if fold(bare) != b"one_to_one":
        mark("other pattern is all to all")
        return False
    mark("pattern one to one")
    mark("pattern with dropped characters", bare != text)
    mark("pattern in another case", bare != b"one_to_one")
    return True


def is_one_to_one(model, component):
    text = model.name(model.rows["C"][component].pattern)
    if text is None:
        mark("missing pattern is all to all")
        return False
    return says_one_to_one(text)


SOURCE, DESTINATION = "source", "destination"


# "A step from (component, feature) towards the source: a connection of that component
# with a source subcomponent, no destination subcomponent, its destination feature
# byte-equal, and one found child. It leads to (child, source feature). Towards the
# destination, its mirror image." "Connections, then children": "Pairs, chains and the
# first found child follow that place"; "connections still go by row." (02, i) "tracing
# compares features folded" (02, vi)
def steps(model, side, component, feature, ignore_case):
    """All steps as (connection, child, feature); each found child is one."""
    key = side, component, feature, ignore_case
    if key in model.found_steps:
        return model.found_steps[key]
    found, used = [], 0
    for connection in model.connections[component]:
        source_sub, source, destination_sub, destination = \
            map(model.name, ends_of(model.rows["X"][connection]))
        if side == SOURCE:
            sub, inner, other_sub, outer = source_sub, source, destination_sub, destination
        else:
            sub, inner, other_sub, outer = destination_sub, destination, source_sub, source
        if sub is None or other_sub is not None or outer is None:
            continue
        if not taken_as_one(outer, feature, ignore_case):
            mark("no step where only the case differs", fold(outer) == fold(feature))
            continue
        children = find_children_by_name(model, component, sub, ignore_case)
        mark("no step without a found child", not children)
        mark("several found children in a step", len(children) > 1)
        mark("steps by place", children != sorted(children))
        mark("step towards the " + side, bool(children))
        mark("ignoring case: step towards the " + side, bool(children) and outer != feature)
        used += bool(children)
        found.extend((connection, child, inner) for child in children)
    mark("several connections in a step", used > 1)
    places = [model.rows["C"][child].place for _, child, _ in found]
    mark("steps by connection, then place", places != sorted(places))
    model.found_steps[key] = found
    return found


# "A chain ends where no step exists or after 20 steps; it has a twenty-first step where
# one exists from the end of its twentieth." "The traced listing's limit becomes an argument"
# (02, ix): as many steps as that, where it is another number.
def count_chains(model, side, component, feature, left, limit, ignore_case):
    """How many chains there are, so that too many are refused without being listed."""
    key = side, component, feature, left, ignore_case
    if key in model.chain_counts:
        return model.chain_counts[key]
    onward = steps(model, side, component, feature, ignore_case)
    if left == 0:
        mark("chain ends after 20 steps", limit == LIMIT)
        mark("twenty-first step exists" if onward else "exactly 20 steps", limit == LIMIT)
        count = 1
    elif not onward:
        mark("chain without a step" if left == limit else "chain ends by no step")
        count = 1
    else:
        count = sum(count_chains(model, side, child, inner, left - 1, limit, ignore_case)
                    for _, child, inner in onward)
    model.chain_counts[key] = count
    return count


def chains(model, side, component, feature, left, ignore_case, taken=()):
    """Every chain in order, as (component, feature, connections stepped through)."""
    onward = steps(model, side, component, feature, ignore_case) if left > 0 else []
    if not onward:
        yield component, feature, taken
    for connection, child, inner in onward:
        yield from chains(model, side, child, inner, left - 1, ignore_case, taken + (connection,))


# ---------------------------------------------------------------------------
# The traced listing.

Row = collections.namedtuple("Row", "connection kind source_component destination_component "
                                    "path name source destination")
# "A diagnostic is code, connection, two numbers: 2 and 3 subcomponent name and 0; 4
# both counts; 5 feature name and 0; 1 zeros."
Diagnostic = collections.namedtuple("Diagnostic", "code connection first second")


# What stands at either end of an X row: the children that are found, or None for the owner, which
# "is not traced"; and whether they are paired one to one.
Ends = collections.namedtuple("Ends", "connection sources destinations one_to_one")


# "`compute_semantic_connections`, per X row:"
def traced_ends(model, ignore_case):
    """(the Ends of each X row that is not passed over, diagnostics)"""
    diagnostics, found = [], []
    for x, values in enumerate(model.rows["X"]):
        owner = values.owner
        source_sub, source, destination_sub, destination = ends_of(values)

        # "An end without feature: diagnostic 1, once, nothing more."
        if source is None or destination is None:
            mark("diagnostic 1")
            mark("diagnostic 1 once for both ends", source == destination)
            diagnostics.append(Diagnostic(1, x, 0, 0))
            continue

        # "Neither: nothing."
        if source_sub is None and destination_sub is None:
            mark("neither end with a subcomponent")
            continue

        # "One with subcomponent: only if the owner has no parent"
        both = source_sub is not None and destination_sub is not None
        if not both and model.rows["C"][owner].parent is not None:
            mark("one end below the root gives nothing")
            continue

        # "diagnostic 2 for no source child, 3 for no destination child"; "the other
        # end is the owner and is not traced."
        place = "both ends: " if both else "one end at the root: "
        sources = destinations = None
        if source_sub is not None:
            sources = find_children_by_name(model, owner, model.name(source_sub), ignore_case)
            if not sources:
                mark(place + "diagnostic 2")
                diagnostics.append(Diagnostic(2, x, source_sub, 0))
        if destination_sub is not None:
            destinations = find_children_by_name(model, owner, model.name(destination_sub), ignore_case)
            if not destinations:
                mark(place + "diagnostic 3")
                diagnostics.append(Diagnostic(3, x, destination_sub, 0))

        if not both:
            mark("one end at the root: source", bool(sources))
            mark("one end at the root: destination", bool(destinations))

        # "then 4 where the owner's pattern is one to one and the counts differ."
        one_to_one = both and is_one_to_one(model, owner)
        if one_to_one and len(sources) != len(destinations):
            mark("both ends: diagnostic 4")
            mark("both ends: 4 beside 2 or 3", not sources or not destinations)
            diagnostics.append(Diagnostic(4, x, len(sources), len(destinations)))
        found.append(Ends(x, sources, destinations, one_to_one))
    return found, diagnostics


def count_rows(model, ends, limit, ignore_case):
    """How many rows an X row makes with these Ends."""
    sources, destinations = ends.sources, ends.destinations
    _, source, _, destination = map(model.name, ends_of(model.rows["X"][ends.connection]))
    source_counts = [1] if sources is None else \
        [count_chains(model, SOURCE, child, source, limit, limit, ignore_case) for child in sources]
    destination_counts = [1] if destinations is None else \
        [count_chains(model, DESTINATION, child, destination, limit, limit, ignore_case)
         for child in destinations]
    mark("every source chain with every destination chain",
         any(a > 1 for a in source_counts) and any(b > 1 for b in destination_counts))
    if ends.one_to_one:
        mark("pairs one to one", min(len(sources), len(destinations)) > 1)
        mark("pairs one to one up to the shorter",
             len(sources) != len(destinations) and bool(sources) and bool(destinations))
        return sum(a * b for a, b in zip(source_counts, destination_counts))
    mark("pairs all to all", sources is not None and destinations is not None
         and len(sources) * len(destinations) > 1)
    return sum(source_counts) * sum(destination_counts)


# "Pairs up to the shorter list, or all, source outermost." "Pairs .. follow that place" (02, i),
# as the found children do.
def pairs_of(model, ends):
    """The pairs of what stands at the source and what stands at the destination."""
    owner = model.rows["X"][ends.connection].owner
    # "the other end is the owner and is not traced."
    sources = [owner] if ends.sources is None else ends.sources
    destinations = [owner] if ends.destinations is None else ends.destinations
    if ends.one_to_one:
        pairs = list(zip(sources, destinations))
        mark("pairs one to one by place",
             set(pairs) != set(zip(sorted(sources), sorted(destinations))))
        return pairs
    pairs = [(a, b) for a in sources for b in destinations]
    both = ends.sources is not None and ends.destinations is not None
    mark("pairs all to all by place" if both else "one end at the root: by place",
         pairs != [(a, b) for a in sorted(sources) for b in sorted(destinations)])
    return pairs


# "Per pair every source chain with every destination chain; path is this connection, source
# steps, then destination steps not yet in it."
def rows_of_connection(model, ends, pairs, limit, ignore_case):
    """The rows that an X row makes with these Ends, paired so."""
    x, values = ends.connection, model.rows["X"][ends.connection]
    source, destination = model.name(values.source_feature), model.name(values.destination_feature)
    source_limit = 0 if ends.sources is None else limit
    destination_limit = 0 if ends.destinations is None else limit
    rows = []
    for start, end in pairs:
        for a, a_feature, a_steps in chains(model, SOURCE, start, source, source_limit, ignore_case):
            for b, b_feature, b_steps in chains(model, DESTINATION, end, destination,
                                                destination_limit, ignore_case):
                path = [x] + list(a_steps)
                for step in b_steps:
                    if step not in path:
                        path.append(step)
                mark("path with source and destination steps", bool(a_steps) and bool(b_steps))
                mark("limit: path of over 41 connections", len(path) > PLACES_AT_20)
                mark("limit: path of 129 connections", len(path) == PLACES)
                rows.append(Row(x, values.kind, a, b, path, model.name(values.name),
                                a_feature, b_feature))
    return rows


# "a lent table that the listing itself fills" (02, xiii) "The second refuses by the same rules,
# over its own lists." (02, vi) "The traced listing's limit becomes an argument" (02, ix)
def traced_listing(model, rows_room, diagnostics_room, links_room=CONLIST_LINKS, ignore_case=False,
                   limit=LIMIT):
    """(rows, diagnostics), or the number of the refusal."""
    # 19: "A limit above 64"
    if is_past_64(limit):
        return 19
    # 22: "One of fewer whole rows than components"
    if lacks_links(model, links_room):
        return 22
    found, diagnostics = traced_ends(model, ignore_case)

    # 11, then 12.
    if sum(count_rows(model, ends, limit, ignore_case) for ends in found) > rows_room:
        mark("traced 11")
        return 11
    if len(diagnostics) > diagnostics_room:
        mark("traced 12")
        return 12

    paired = [(ends, pairs_of(model, ends)) for ends in found]
    if limit != LIMIT:
        mark_limit(model, paired, limit, ignore_case)
    rows = [row for ends, pairs in paired
            for row in rows_of_connection(model, ends, pairs, limit, ignore_case)]
    return rows, diagnostics


# "Followed are the chains, stepless ones too, that start from a child these rules pair with a
# child or the owner, at the feature the X row names for it, and run towards the end it stands
# at."
def followed_from(model, ends, pairs):
    """Where the chains start that are followed for these Ends, paired so: by the side the children
    and the feature. No children where that end is not traced."""
    _, source, _, destination = map(model.name, ends_of(model.rows["X"][ends.connection]))
    sources = [] if ends.sources is None else list(dict.fromkeys(a for a, _ in pairs))
    destinations = [] if ends.destinations is None else list(dict.fromkeys(b for _, b in pairs))
    return {SOURCE: (sources, source), DESTINATION: (destinations, destination)}


# "Without a limit a chain ends only where no step exists (rows grow, so it ends)"
def longest_from(model, side, component, feature, ignore_case):
    """How many steps the longest chain has from there, without a limit."""
    key = side, component, feature, ignore_case
    if key not in model.longest:
        onward = steps(model, side, component, feature, ignore_case)
        model.longest[key] = max((1 + longest_from(model, side, child, inner, ignore_case)
                                  for _, child, inner in onward), default=0)
    return model.longest[key]


# "the lists are equal exactly when they are the same number or no followed chain has a step beyond
# the smaller." (02, ix) None has one exactly where the longest has no more steps than that.
def longest_chain(model, ignore_case=False):
    """How many steps the longest followed chain has, without a limit; 0 where none is followed."""
    found, _ = traced_ends(model, ignore_case)
    return max((longest_from(model, side, child, feature, ignore_case) for ends in found
                for side, (children, feature) in
                followed_from(model, ends, pairs_of(model, ends)).items()
                for child in children), default=0)


def mark_limit(model, paired, limit, ignore_case):
    """For the marks only: which of the followed chains a limit other than 20 cuts, and what they
    are like."""
    lengths, cut = [], []
    for ends, pairs in paired:
        cut_from = {}
        for side, (children, feature) in followed_from(model, ends, pairs).items():
            of_side = []
            for child in children:
                some = list(chains(model, side, child, feature, limit, ignore_case))
                lengths += [len(connections) for _, _, connections in some]
                cut_from[side, child] = [mark_cut(model, side, chain, limit, ignore_case)
                                         for chain in some]
                of_side += cut_from[side, child]
            mark("limit: whole chain beside a cut one", any(of_side) and not all(of_side))
            cut += of_side
        for start, end in pairs:
            mark_rows(cut_from.get((SOURCE, start), [False]),
                      cut_from.get((DESTINATION, end), [False]), limit)
    longest = max(lengths) if lengths and not any(cut) else None
    mark("limit: past every chain", longest is not None and longest < limit)
    mark("limit: longest chain of exactly as many steps", longest == limit)
    mark("limit: step beyond in one chain alone", cut.count(True) == 1)


def mark_cut(model, side, chain, limit, ignore_case):
    """Whether this chain has a step beyond the limit; for the marks only, what it is like."""
    component, feature, connections = chain
    onward = steps(model, side, component, feature, ignore_case)
    is_cut = len(connections) == limit and bool(onward)
    mark("limit: chain of exactly as many steps", len(connections) == limit and not is_cut)
    mark("limit: chain of over 20 steps, whole", len(connections) > LIMIT and not is_cut)
    mark("limit: chain of over 20 steps, cut", len(connections) > LIMIT and is_cut)
    mark("limit: chain cut", is_cut)
    mark("limit: several steps beyond the last", is_cut and len(onward) > 1)
    mark("limit: step beyond the last in another case", is_cut and ignore_case
         and not unmarked(steps, model, side, component, feature, False))
    return is_cut


def mark_rows(source_cut, destination_cut, limit):
    """For the marks only: the rows of these chains, of which the limit cuts some."""
    for source, destination in itertools.product(source_cut, destination_cut):
        mark("limit: cut towards the source alone", source and not destination)
        mark("limit: cut towards the destination alone", destination and not source)
        mark("limit: cut towards both", source and destination)
        mark("limit: row of a path of one, with a step beyond",
             limit == 0 and (source or destination))


# ---------------------------------------------------------------------------
# The group listing.

# By the order of `FeatureKind` (data port, event port, event data port, parameter, data
# access, bus access, subprogram access, subprogram group access, feature group,
# abstract feature) and of `ConnectionKind` (port, access, feature group, feature,
# parameter).
FEATURE_KIND_TO_CONNECTION_KIND = [0, 0, 0, 4, 1, 1, 1, 1, 2, 3]


# "first found child, or the owner where no subcomponent is named; skip if none." "the
# first found child follow that place" (02, i)
def endpoint_component(model, owner, subcomponent, ignore_case):
    if subcomponent is None:
        mark("group list: the owner itself")
        return owner
    wanted = model.name(subcomponent)
    found = find_children_by_name(model, owner, wanted, ignore_case)
    mark("group list: first of several children", len(found) > 1)
    mark("group list: first child by place", found != [] and found[0] != min(found))
    mark("group list: no child, skip", not found)
    if not found:
        return None
    spelled = model.name(model.rows["C"][found[0]].name)
    mark("ignoring case: first found child in another case",
         spelled != wanted and taken_as_one(spelled, wanted, ignore_case))
    return found[0]


# "It needs an F row of the component (folded name, kind 8), the component's type
# resolved to a T (a reference with and from the component's package), and that type's
# first E row of that folded name and kind 8; if that row lacks a classifier, none. The
# asking package is the classifier's, else the component's, with no rename applied; the
# implementation name is dropped."
def endpoint_reference(model, component, feature):
    """(asking package, type name) to expand, or None."""
    key = fold(feature)
    own = model.rows["C"][component]
    package, type_name = model.name(own.package), model.name(own.type)

    kinds = [model.rows["F"][row].kind for row in model.features[component]
             if fold(model.name(model.rows["F"][row].name)) == key]
    if 8 not in kinds:
        mark("none: F row of another kind" if kinds else "none: no F row of that name")
        return None

    found = resolve_classifier(model, package, (package, type_name, None))
    if found is None or found[0] != "T":
        mark("none: component's type not found" if found is None else "none: component's type is a U")
        return None

    passed_over = False
    for row in model.declared[0, found[1]]:
        declared = model.rows["E"][row]
        if fold(model.name(declared.name)) != key:
            continue
        if declared.kind != 8:
            passed_over = True
            continue
        classifier = model.reference(declared, "classifier")
        if classifier is None:
            mark("none: no classifier")
            return None
        later = [other for other in model.declared[0, found[1]] if other > row
                 and fold(model.name(model.rows["E"][other].name)) == key
                 and model.rows["E"][other].kind == 8]
        mark("first E row of kind 8", passed_over or bool(later))
        asking = package if classifier[0] is None else classifier[0]
        mark("asking package is the component's" if classifier[0] is None
             else "asking package is the classifier's")
        mark("asking package with no rename applied", classifier[0] is not None and
             (model.packages.get(fold(package)), 0, fold(classifier[0])) in model.renames)
        mark("implementation name is dropped", classifier[2] is not None)
        bare = model.packages.get(fold(asking)), fold(classifier[1])
        mark("private group found from outside", fold(asking) != fold(package)
             and bare not in model.types and bare in model.groups
             and model.rows["U"][model.groups[bare]].private == 1)
        return asking, classifier[1]
    mark("none: no E row")
    return None


# "group.prefix.feature names (group.feature without a prefix), the group spelled as in
# the X row."
def expanded_name(group, feature):
    if feature.prefix is None:
        mark("name without a prefix")
        return group + b"." + feature.name
    mark("name with a prefix")
    return group + b"." + feature.prefix + b"." + feature.name


# "`expand_feature_group_connections`, per X row of kind 2 with both ends: first found
# child, or the owner where no subcomponent is named; skip if none.
# `expand_endpoint_feature_group` on both, always; if either gives none (an empty
# expansion is not none), skip." "a lent table that the listing itself fills" (02, xiii) "The
# second refuses by the same rules, over its own lists." (02, vi)
def group_listing(model, rows_room, diagnostics_room, composed_room, links_room=CONLIST_LINKS,
                  ignore_case=False):
    """(rows, diagnostics, composed bytes), or the number of the refusal."""
    # 22: "One of fewer whole rows than components"
    if lacks_links(model, links_room):
        return 22
    work = []
    total = total_diagnostics = 0
    for x, values in enumerate(model.rows["X"]):
        source_sub, source, destination_sub, destination = ends_of(values)
        if values.kind != 2:
            continue
        if source is None or destination is None:
            mark("group list: an end is missing")
            continue
        a = endpoint_component(model, values.owner, source_sub, ignore_case)
        b = endpoint_component(model, values.owner, destination_sub, ignore_case)
        if a is None or b is None:
            continue
        a_asks = endpoint_reference(model, a, model.name(source))
        b_asks = endpoint_reference(model, b, model.name(destination))
        ends = []
        for asks in a_asks, b_asks:
            if asks is None:
                ends.append(None)
                continue
            # 13: "one endpoint has over 65,536 visits"
            this = visit(model, asks[0], (None, asks[1], None), 0)
            if this.count > MAX_VISITS:
                mark("source none, destination expanded all the same", ends == [None])
                mark("13")
                return 13
            ends.append(this)
        mark("source none, destination expanded all the same", ends[0] is None and ends[1] is not None)
        if ends[0] is None or ends[1] is None:
            continue
        mark("empty expansion is not none", not ends[0].names or not ends[1].names)
        matched = {name for name in ends[0].names if name in ends[1].names}
        unmatched = {name for name in ends[0].names if name not in ends[1].names}
        total += sum(ends[0].names[name] for name in matched)
        total_diagnostics += sum(ends[0].names[name] for name in unmatched)
        work.append((x, a, b, a_asks, b_asks, matched, unmatched))

    # 11: "more rows than the output holds"
    if total > rows_room:
        mark("group 11")
        return 11

    # "The search stops at the first destination feature whose last name is equal folded;
    # prefixes are not compared. Rows carry "connection.feature" and the kind by
    # `feature_kind_to_connection_kind`, both of the source feature"
    rows, composed = [], []
    for x, a, b, a_asks, b_asks, matched, _ in work:
        values = model.rows["X"][x]
        source, destination = model.name(values.source_feature), model.name(values.destination_feature)
        first = {}  # first destination feature per folded last name
        a_reference, b_reference = (None, a_asks[1], None), (None, b_asks[1], None)
        for feature in features(model, a_asks[0], a_reference, matched):
            key = fold(feature.name)
            if key not in first:
                first[key] = next(features(model, b_asks[0], b_reference, {key}))
            other = first[key]
            mark("match in another case", other.name != feature.name)
            mark("prefixes are not compared", other.prefix != feature.prefix)
            mark("kind of the source feature", other.kind != feature.kind)
            mark("first of several destination features",
                 visit(model, b_asks[0], b_reference, 0).names[key] > 1)
            mark_spelling(model, a, source)
            mark_spelling(model, b, destination)
            row = Row(x, FEATURE_KIND_TO_CONNECTION_KIND[feature.kind], a, b, [x],
                      model.name(values.name) + b"." + feature.name,
                      expanded_name(source, feature), expanded_name(destination, other))
            rows.append(row)
            # "Each row's names (row, source, destination) lie unseparated in the
            # output of composed names."
            composed.append(row.name + row.source + row.destination)

    # 14: "composed names longer than their output"
    composed = b"".join(composed)
    if len(composed) > composed_room:
        mark("14")
        return 14
    # 12: "more diagnostics than the output holds"
    if total_diagnostics > diagnostics_room:
        mark("group 12")
        return 12

    # "No match: diagnostic 5." "5 feature name and 0"
    diagnostics = []
    for x, _, _, a_asks, _, _, unmatched in work:
        for feature in features(model, a_asks[0], (None, a_asks[1], None), unmatched):
            mark("diagnostic 5")
            diagnostics.append(Diagnostic(5, x, feature.number, 0))
    return rows, diagnostics, composed


def mark_spelling(model, component, group):
    """For the marks only: does the component spell its group otherwise?"""
    mark("group spelled as in the X row",
         all(model.name(model.rows["F"][row].name) != group for row in model.features[component]))


# ---------------------------------------------------------------------------
# Both listings.

Listings = collections.namedtuple("Listings", "traced_rows traced_diagnostics "
                                              "group_rows group_diagnostics composed")


# "The traced listing ends, refusals included, before the group listing starts."
def listings(bytes_table, tables, traced_rows, traced_diagnostics, group_rows, group_diagnostics,
             composed_room, links_room=CONLIST_LINKS, ignore_case=False, limit=LIMIT):
    """Listings over accepted tables with outputs of these sizes (in rows, diagnostics
    and bytes), or the number of the refusal."""
    return listings_of_model(Model(bytes_table, tables), traced_rows, traced_diagnostics,
                             group_rows, group_diagnostics, composed_room, links_room, ignore_case,
                             limit)


# Both lists are made over one link table. "It gives both listings" (02, vi) "The traced listing's
# limit" (02, ix) is that of the traced one alone.
def listings_of_model(model, traced_rows, traced_diagnostics, group_rows, group_diagnostics,
                      composed_room, links_room=CONLIST_LINKS, ignore_case=False, limit=LIMIT):
    traced = traced_listing(model, traced_rows, traced_diagnostics, links_room, ignore_case, limit)
    if isinstance(traced, int):
        return traced
    group = group_listing(model, group_rows, group_diagnostics, composed_room, links_room, ignore_case)
    if isinstance(group, int):
        return group
    return Listings(*traced, *group)


# "Where all names that differ also differ folded, both entries give one list." (02, vi)
def names_apart(model):
    """Do all names that differ also differ folded?"""
    return len(set(model.names)) == len(set(map(fold, model.names)))


# ---------------------------------------------------------------------------
# The selections of modes.

MOST_SELECTIONS = 10000

# How many there are and whether the list was cut; the components that each of them has a
# mode of, as the M rows of each.
Selections = collections.namedtuple("Selections", "count cut components")

# The M rows of one selection, and their names joined.
Selection = collections.namedtuple("Selection", "rows name")


# "Components with modes and their modes come in row order"
def modes_by_component(model):
    """The M rows of each component that has some."""
    return [model.modes[component] for component in sorted(model.modes)]


# "If the growing list passes 10,000 at a component, its first 10,000 selections count and
# later components are missing from each" "With no modes at all the number is 0 and nothing
# is cut; else cut is said exactly if some combination of all components with modes is
# lacking." (02, xi)
def selections(model):
    """A list grows at each component by as many times as that has modes, from one selection
    of nothing."""
    modal = modes_by_component(model)
    if not modal:
        return Selections(0, False, [])
    count, components = 1, []
    for modes in modal:
        count *= len(modes)
        components.append(modes)
        if count > MOST_SELECTIONS:
            count = MOST_SELECTIONS
            break
    # No selection is given twice, and one that lacks a component is no such combination.
    combinations = math.prod(map(len, modal))
    complete = count if len(components) == len(modal) else 0
    return Selections(count, complete < combinations, components)


# "the last one's mode changes fastest, and the mode names are joined by an underscore."
# (02, xi)
def selection_at(model, number):
    """The selection of this number, which is below their count."""
    components = selections(model).components
    rows, left = [], number
    for modes in reversed(components):
        left, at = divmod(left, len(modes))
        rows.insert(0, modes[at])
    return Selection(rows, b"_".join(model.name(model.rows["M"][row].name) for row in rows))


# "One call gives the number of selections and whether it was cut" (02, xi)
def selection_count(model):
    """(how many selections there are, whether the list was cut) of an accepted model."""
    found = selections(model)
    mark_modes(model, found)
    return found.count, found.cut


# "another the selection at a number the caller names, as `M` rows with the joined name."
# "A selection number not below the number of selections is refused as 20, after the tables'
# checks; a selection longer than its output is then the existing 11, and a joined name
# longer than its output the existing 14." (02, xi)
def selection(model, number, rows_room, name_room):
    """The Selection of this number of an accepted model, with outputs for so many rows and
    bytes, or the number of the refusal."""
    found = selections(model)
    if number >= found.count:
        mark("20")
        mark("20: no modes at all", found.count == 0)
        mark("20: the number of selections itself", number == found.count)
        mark("20: in a cut list", found.cut)
        return 20
    chosen = selection_at(model, number)
    if len(chosen.rows) > rows_room:
        mark("mode 11")
        return 11
    if len(chosen.name) > name_room:
        mark("mode 14")
        return 14
    mark_selection(model, number, found, chosen)
    return chosen


def mark_modes(model, found):
    """For the marks only: what the components with modes are like, and where the list ends."""
    modal = modes_by_component(model)
    mark("modes: some" if modal else "modes: none at all")
    rows, components = model.rows["M"], model.rows["C"]
    owners = [values.owner for values in rows]
    first_rows = list(dict.fromkeys(owners))  # the components as their first M rows come
    in_order = sorted(first_rows)
    mark("modes: initial 0", any(values.initial == 0 for values in rows))
    mark("modes: initial 1", any(values.initial == 1 for values in rows))
    mark("modes: not one initial of a component",
         any(sum(rows[row].initial for row in modes) != 1 for modes in modal))
    mark("modes: owner below the root", any(owners))
    several = [len(modes) > 1 for modes in modal]
    mark("modes: several of a component", any(several))
    mark("modes: of several components", len(modal) > 1)
    mark("modes: one of a component beside several of another", any(several) and not all(several))
    mark("modes: component without any between",
         bool(modal) and in_order[-1] - in_order[0] >= len(in_order))
    mark("modes: rows interleaved",
         sum(one != other for one, other in zip(owners, owners[1:])) >= max(len(modal), 1))
    mark("modes: rows not in the order of components", first_rows != in_order)
    mark("modes: components by row, not by place",
         any(components[one].parent == components[other].parent
             and components[one].place > components[other].place
             for one, other in zip(in_order, in_order[1:])))
    mark("modes: components by row, not as the tree goes",
         [row for row in down_the_tree(model) if row in model.modes] != in_order)
    names = [[model.name(rows[row].name) for row in modes] for modes in modal]
    mark("modes: two of one name in a component", any(len(set(own)) < len(own) for own in names))
    mark("modes: equal joined names of other names",
         not found.cut and found.count <= FEW_SELECTIONS and joined_alike(names))
    before_last = math.prod(map(len, found.components[:-1]))
    mark("modes: exactly 10,000", found.count == MOST_SELECTIONS and not found.cut)
    mark("modes: cut", found.cut)
    last = len(found.components) == len(modal)
    mark("modes: cut at the last component", found.cut and last)
    mark("modes: cut before the last component", found.cut and not last)
    mark("modes: cut behind exactly 10,000", found.cut and before_last == MOST_SELECTIONS)


def down_the_tree(model):
    """For the marks only: all components, behind each its children, by row, with what is in
    them."""
    found, left = [], [0]
    while left:
        found.append(left.pop())
        left.extend(sorted(model.children[found[-1]], reverse=True))
    return found


# Of so many selections at most are the names compared, for their mark.
FEW_SELECTIONS = 1000


def joined_alike(names):
    """For the marks only: do two choices of other names, one of each of these lists, give the
    same when they are joined?"""
    choices = set(itertools.product(*names))
    return len({b"_".join(choice) for choice in choices}) < len(choices)


def mark_selection(model, number, found, chosen):
    """For the marks only: what a selection is like."""
    mark("mode: first selection", number == 0)
    mark("mode: last selection", number == found.count - 1)
    left, other = number, []  # where the first one's mode would change fastest
    for modes in found.components:
        left, at = divmod(left, len(modes))
        other.append(modes[at])
    mark("mode: last one's mode changes fastest", other != chosen.rows)
    mark("mode: names joined", len(chosen.rows) > 1)
    mark("mode: selection 9,999 of a cut list", found.cut and number == MOST_SELECTIONS - 1)
    mark("mode: later components are missing", len(chosen.rows) < len(modes_by_component(model)))


# ---------------------------------------------------------------------------
# The text.

# "Numbers take six columns as in the sheet, longer ones stand in full."
def columns(numbers):
    return b"".join(b"%6d" % number for number in numbers)


# "`S`: connection, kind, source component, destination component, path length, path;
# then `= ` row name, `< ` source feature, `> ` destination feature."
def row_text(row):
    numbers = [row.connection, row.kind, row.source_component, row.destination_component,
               len(row.path)] + row.path
    return (b"S" + columns(numbers) + b"\n= " + row.name + b"\n< " + row.source
            + b"\n> " + row.destination + b"\n")


# "`D`: the four numbers; then `! ` and the Rust's message, and `@ ` for each of its path
# names."
def diagnostic_text(model, diagnostic):
    code, x, first, second = diagnostic
    connection = model.rows["X"][x]
    name, owner = model.name(connection.name), model.name(model.rows["C"][connection.owner].name)
    path = [owner, name]
    if code == 1:
        message = b"connection '%b': missing endpoint" % name
    elif code == 2:
        message = b"connection '%b': unresolved source subcomponent '%b'" % (name, model.name(first))
    elif code == 3:
        message = b"connection '%b': unresolved destination subcomponent '%b'" % (name, model.name(first))
    elif code == 4:
        message = (b"connection '%b': One_To_One pattern requires equal array sizes "
                   b"(source=%d, destination=%d)" % (name, first, second))
    else:
        message = (b"feature group connection '%b': source feature '%b' has no matching "
                   b"destination feature (STPA-REQ-011)" % (name, model.name(first)))
        path = [name, model.name(first)]
    return (b"D" + columns(diagnostic) + b"\n! " + message + b"\n"
            + b"".join(b"@ " + one + b"\n" for one in path))


# "It prints traced rows, group rows, traced diagnostics, group diagnostics, then `Z`
# with both row counts."
def list_text(model, lists):
    mark("text: traced row", bool(lists.traced_rows))
    mark("text: group row", bool(lists.group_rows))
    mark("text: traced diagnostic", bool(lists.traced_diagnostics))
    mark("text: group diagnostic", bool(lists.group_diagnostics))
    mark("text: no row", not lists.traced_rows and not lists.group_rows)
    parts = [row_text(row) for row in lists.traced_rows + lists.group_rows]
    parts += [diagnostic_text(model, one)
              for one in lists.traced_diagnostics + lists.group_diagnostics]
    parts.append(b"Z" + columns([len(lists.traced_rows), len(lists.group_rows)]) + b"\n")
    return b"".join(parts)


# "One call gives the number of selections and whether it was cut" (02, xi)
def count_text(count, cut):
    return b"Z" + columns([count, cut]) + b"\n"


# "the selection at a number the caller names, as `M` rows with the joined name." (02, xi)
def selection_text(chosen):
    return b"M" + columns(chosen.rows) + b"\n= " + chosen.name + b"\n"


# "A refusal prints only `R`, number, place, a space and the table letter or `-`." "The
# place is the line from 1, or letter and lowest bad row (where two rows clash, the
# later), else 0."
def refusal_text(number, letter="-", place=0):
    if letter != "-":
        mark("text: refusal with a table letter")
    else:
        mark("text: refusal with a line" if place else "text: refusal without a place")
    return b"R" + columns([number, place]) + b" " + letter.encode() + b"\n"


# The same line, read again: the refusal that a text tells, unless it is a list.
def refusal_of(text):
    if not text.startswith(b"R"):
        return None
    return Refusal(int(text[1:7]), text[14:15].decode(), int(text[7:13]))


def refused_before_the_listings(text):
    refusal = refusal_of(text)
    return refusal is not None and refusal.number in BEFORE_LISTINGS


# "It reads standard input and lends 256 `N` rows, 96 of each other letter, a byte table
# of 16,384, per listing 64 rows and 64 diagnostics, 4,096 bytes for composed names,
# 8,192 for text."
CONLIST_LINES = {letter: 256 if letter == "N" else 96 for letter in LETTERS}
CONLIST_ROOMS = {letter: CONLIST_LINES[letter] * WIDTH[letter] for letter in LETTERS}
CONLIST_BYTES = 16384
CONLIST_ROWS = 64
CONLIST_DIAGNOSTICS = 64
CONLIST_COMPOSED = 4096
CONLIST_TEXT = 8192


# "Like every later program, it reads, lends and prints refusals as conlist does" (02, iii):
# what `mode` lends for a selection, as many rows as there are lines of `M`.
MODE_ROWS = 96
MODE_NAME = 4096


def read(sheet):
    """What the reader makes of these bytes, with tables as the programs lend them."""
    return read_sheet(sheet, CONLIST_BYTES, CONLIST_ROOMS)


# "A limit above 64 is refused as 19, after 5 and before 10." (02, ix)
def accepted(sheet, limit=LIMIT):
    """The Model of these bytes, or their Refusal by sheet, line, limit or tables."""
    tables = read(sheet)
    if isinstance(tables, Refusal):
        mark("19: after 1 to 5", limit > LARGEST_LIMIT)
        return tables
    if is_past_64(limit):
        mark("19: before 6 to 16", bool(unmarked(check_tables, *tables)))
        return Refusal(19, "-", 0)
    return check_tables(*tables) or Model(*tables)


def printed(model, text_of):
    """What a program prints for a model that was accepted, or for the Refusal in its place;
    text_of gives the text of a model, or the number of a refusal."""
    if isinstance(model, Refusal):
        return refusal_text(*model)
    text = text_of(model)
    if isinstance(text, int):
        return refusal_text(text)
    # 15: "printed list longer than its output"
    if len(text) > CONLIST_TEXT:
        mark("15")
        return refusal_text(15)
    return text


def text_of_lists(model, ignore_case=False, limit=LIMIT):
    """The text of both lists, or the number of the refusal, with outputs as `conlist` lends
    them."""
    lists = listings_of_model(model, CONLIST_ROWS, CONLIST_DIAGNOSTICS, CONLIST_ROWS,
                              CONLIST_DIAGNOSTICS, CONLIST_COMPOSED, ignore_case=ignore_case,
                              limit=limit)
    return lists if isinstance(lists, int) else list_text(model, lists)


def text_of_count(model):
    """The text of how many selections there are."""
    return count_text(*selection_count(model))


def text_of_selection(number):
    """Of a model: the text of its selection of this number, or the number of the refusal, with
    outputs as `mode` lends them."""
    def text_of(model):
        chosen = selection(model, number, MODE_ROWS, MODE_NAME)
        return chosen if isinstance(chosen, int) else selection_text(chosen)
    return text_of


def answer(sheet, ignore_case=False, limit=LIMIT):
    """What `conlist` prints for these bytes, or the same of the second entry; with this limit as
    its argument, where it is another than 20."""
    return printed(accepted(sheet, limit), lambda model: text_of_lists(model, ignore_case, limit))


def modes_answer(sheet):
    """What `modes` prints for these bytes."""
    return printed(accepted(sheet), text_of_count)


def mode_answer(sheet, number):
    """What `mode NUMBER` prints for these bytes."""
    return printed(accepted(sheet), text_of_selection(number))


# The argument of `mode`, and that of the two entries: a decimal number of 64 bits, written as a
# number is in the sheet.
def number_of(text):
    """The number that this text is, or None."""
    if not re.fullmatch("0|[1-9][0-9]{0,19}", text) or int(text) > LARGEST_LONG:
        return None
    return int(text)


def numbers_to_ask(count):
    """Numbers of selections, of so many, that tell one reading from another: the first, the
    last, some between, and, of those that are refused, the next ones and far ones."""
    some = {0, 1, count // 3, count // 2, max(count, 1) - 1, count, count + 1, MOST_SELECTIONS,
            LOW_BITS, LOW_BITS + 1, LOW_BITS + 1 + count // 2, LARGEST_LONG}
    return sorted(some)


def answers(sheet):
    """What all programs print for these bytes: the words of the command, and the text. `mode` is
    asked with several numbers."""
    model = accepted(sheet)
    found = {("conlist",): printed(model, text_of_lists), ("modes",): printed(model, text_of_count)}
    count = 0 if isinstance(model, Refusal) else selections(model).count
    for number in numbers_to_ask(count):
        found["mode", str(number)] = printed(model, text_of_selection(number))
    return found


# ---------------------------------------------------------------------------
# The command line.

def main(words):
    sheet = sys.stdin.buffer.read
    if words == ["modes"]:
        return modes_answer(sheet())
    if len(words) == 2 and words[0] == "mode" and number_of(words[1]) is not None:
        return mode_answer(sheet(), number_of(words[1]))
    ignore_case = words[:1] == ["--ignore-case"]
    behind = words[1:] if ignore_case else words
    if behind == []:
        return answer(sheet(), ignore_case)
    if len(behind) == 2 and behind[0] == "--limit" and number_of(behind[1]) is not None:
        return answer(sheet(), ignore_case, number_of(behind[1]))
    sys.exit("usage: second_reading.py [[--ignore-case] [--limit NUMBER] | modes | mode NUMBER] < sheet")


if __name__ == "__main__":
    sys.stdout.buffer.write(main(sys.argv[1:]))
