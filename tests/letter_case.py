"""Accepted sheets with names in another letter case: what scripts share that tell an entry which ignores letter case from the ported one."""
import random

import second_reading
import sheets
from second_reading import fold

# The fields of C and of X whose names are compared when children are looked for and chains are followed.
COMPARED = {"C": ["name"], "X": ["source_subcomponent", "source_feature", "destination_subcomponent", "destination_feature"]}

# So many of a hundred names, and so many of a hundred of these fields, are respelled in a sheet, which draws one number of each list.
NAMES_RESPELLED = [0, 0, 10, 50]
FIELDS_RESPELLED = [0, 3, 10, 30]


def otherwise(name, draw):
    """The name in another letter case, which may be the one that it has."""
    mixed = "".join(draw.choice((letter.lower(), letter.upper())) for letter in name)
    return draw.choice((name.lower(), name.upper(), mixed))


def respell_names(sheet, percent, draw):
    """Respells N rows of a sheet, so for all rows that have their numbers."""
    sheet.names = [otherwise(name, draw) if draw.randrange(100) < percent else name for name in sheet.names]


def respell_fields(sheet, percent, draw):
    """Respells names in single fields, which get numbers of other N rows."""
    for letter, compared in COMPARED.items():
        for row, values in enumerate(sheet.rows[letter]):
            some = [field for field in compared if getattr(values, field) is not None and draw.randrange(100) < percent]
            numbers = {field: sheet.name(otherwise(sheet.names[getattr(values, field)], draw)) for field in some}
            sheet.rows[letter][row] = values._replace(**numbers)


def respell(sheet, draw, of_names=NAMES_RESPELLED, of_fields=FIELDS_RESPELLED):
    """Respells as many names and fields of a sheet as it draws from these."""
    respell_names(sheet, draw.choice(of_names), draw)
    respell_fields(sheet, draw.choice(of_fields), draw)


def respelled(given, number):
    """The accepted sheet of this number with names respelled; as it was, where it has no room for more N rows."""
    model, sheet = second_reading.accepted(given), sheets.Sheet()
    sheet.names = [name.decode("latin-1") for name in model.names]
    sheet.rows = {letter: list(model.rows[letter]) for letter in sheet.rows}
    respell(sheet, random.Random(number))
    fits = not isinstance(second_reading.accepted(sheet.bytes()), second_reading.Refusal)
    return sheet.bytes() if fits else given


def folded(sheet):
    """The sheet with all names in small letters."""
    return b"".join(b"N" + fold(line[1:]) if line.startswith(b"N") else line for line in sheet.splitlines(keepends=True))
