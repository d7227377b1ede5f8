"""Accepted sheets of deep nests: components inside components, and through them chains of connections, whose steps are about as many as a limit."""
import random

from second_reading import CONLIST_LINES, DESTINATION, SOURCE
from sheets import Sheet

FEATURES = "fgh"

# The most steps of a chain. There is room for a few more components and connections than these need.
MOST = 90

# What may stand at a step of a chain, where this goes on in another way than to one child by one connection.
FORMS = ("elements", "elements", "connections", "connections", "again", "in another case", "one more in another case", "no child", "no steps")


class Nest:
    """A sheet in the making, as its number and the limit draw it."""

    def __init__(self, number, limit):
        self.draw, self.limit, self.sheet = random.Random("%d %d" % (number, limit)), limit, Sheet()

    def room(self):
        """How many components and connections there is room for."""
        return min(CONLIST_LINES[letter] - len(self.sheet.rows[letter]) for letter in "CX")

    def steps(self):
        """How many steps a chain is to have, mostly as many as the limit, one less or a few more."""
        near = self.limit + self.draw.choice((-1, 0, 0, 1, 1, 1, 2, 3))
        far = self.draw.choice((self.draw.randint(0, 2), self.draw.randint(0, MOST), self.limit + self.draw.randint(4, 40)))
        return min(max(self.draw.choice((near, near, far)), 0), MOST)

    def few_steps(self, step):
        """How many steps a chain is to have that leaves another at this step: as many as lead it to the limit, one less or one more, or a few."""
        return max(self.draw.choice((self.limit - step + self.draw.choice((-1, 0, 1)), self.draw.randint(0, 3))), 0)

    def forms(self, steps):
        """What stands at some of so many steps, by their numbers from 1."""
        if self.draw.random() < 0.04:
            first = self.limit - self.draw.randrange(8)
            return {step: "again" for step in range(first, first + 8)}
        where = (1, self.limit - 1, self.limit, self.limit + 1, self.limit + 2, self.draw.randint(1, max(steps, 1)))
        forms = {self.draw.choice(where): self.draw.choice(FORMS) for _ in range(self.draw.choice((0, 1, 1, 1, 2, 3, 8)))}
        return {**forms, self.limit + 1: "in another case"} if self.draw.random() < 0.1 else forms

    def connect(self, owner, side, child, inner, outer):
        """A connection of the owner by which a chain towards this side steps from its outer feature to the inner one of a child."""
        ends = (child, inner, None, outer) if side == SOURCE else (None, outer, child, inner)
        self.sheet.connection(self.draw.choice("uvw"), owner, 0, *ends)

    def lead(self, owner, side, feature, steps, forms=()):
        """Leads a chain of so many steps on from a feature of the owner, as far as there is room."""
        for step in range(1, steps + 1):
            if self.room() < 4:
                return
            form, inner = dict(forms).get(step), self.draw.choice(FEATURES)
            on, *beside = self.children(owner, side, inner, feature, form)
            for child in beside:
                self.lead(child, side, inner, min(self.few_steps(step), self.room() - 4 - (steps - step)))
            owner, feature = on, inner

    def children(self, owner, side, inner, outer, form):
        """Makes a step of this form. Hands back the children that it leads to, in front that by which the chain is to go on."""
        if form == "elements":
            elements = [self.sheet.component("e[%d]" % index, owner, index) for index in range(1, self.draw.choice((2, 2, 3)) + 1)]
            self.connect(owner, side, "e", inner, outer)
            return self.draw.sample(elements, len(elements))
        child = self.sheet.component("m", owner)
        wanted = ["m"]
        if form == "in another case":
            inside = self.draw.random() < 0.5
            wanted, outer = (["M"], outer) if inside else (wanted, outer.upper())
        elif form == "connections":
            wanted = self.draw.sample(["m", "k"], 2)
        elif form == "again":
            wanted = ["m", "m"]
        elif form == "no child":
            wanted = self.draw.sample(["m", "nobody"], 2)
        others = {"k": self.sheet.component("k", owner)} if form in ("connections", "one more in another case") else {}
        for one in wanted:
            self.connect(owner, side, one, inner, outer)
        if form == "one more in another case":
            self.connect(owner, side, "k", inner, outer.upper())
        if form == "no steps":
            self.connect(owner, side, "m", inner, outer + outer)
            self.sheet.connection("w", owner, 0, "m", outer, "m", outer)
        return [child, *others.values()]

    def box(self, names, owner, index=None):
        """Components with these names, each in the one before; the innermost one."""
        for name in names:
            owner = self.sheet.component(name, owner, index)
        return owner

    def ends(self, name, owner, count):
        """The children that one end of a connection finds: a child of this name, or so many elements."""
        if count == 1:
            return [self.sheet.component(name, owner)]
        return [self.sheet.component("%s[%d]" % (name, index), owner, index) for index in range(1, count + 1)]

    def lead_all(self, side, children, feature):
        """Leads a chain on from each of these children, the first of them the longest."""
        for number, child in enumerate(children):
            steps = self.steps() if number == 0 else self.few_steps(0)
            self.lead(child, side, feature, min(steps, self.room() - 4), self.forms(steps))

    def finish(self):
        """Adds a few connections of the root, and draws places anew."""
        for _ in range(self.draw.choice((0, 0, 1, 2))):
            ends = self.draw.choice((("a", "f", "b", "f"), ("nobody", "f", "b", "f"), ("a", "f", None, None), (None, "f", "b", "g"), ("a", "g", None, "f")))
            if self.room() > 0:
                self.sheet.connection("more", 0, 0, *ends)
        if self.draw.random() < 0.5:
            self.draw_places()

    def draw_places(self):
        """Gives the children of each component the places of each other."""
        rows = self.sheet.rows["C"]
        for parent in {values.parent for values in rows[1:]}:
            siblings = [row for row, values in enumerate(rows) if values.parent == parent]
            places = self.draw.sample([rows[row].place for row in siblings], len(siblings))
            for row, place in zip(siblings, places):
                rows[row] = rows[row]._replace(place=place)


def nest(number, limit):
    """The sheet of this number for a limit."""
    made = Nest(number, limit)
    draw = made.draw
    both, counts = draw.random() < 0.7, draw.choice(((1, 1), (1, 1), (1, 1), (2, 1), (1, 2), (2, 2), (3, 2)))
    made.sheet.component("root", pattern=draw.choice((None, None, "one_to_one")))
    owner = made.box("box"[:draw.choice((0, 0, 0, 1, 2))], 0) if both else 0
    sides = [SOURCE, DESTINATION] if both else [draw.choice((SOURCE, DESTINATION))]
    found = {side: made.ends(name, owner, count) for side, name, count in zip((SOURCE, DESTINATION), "ab", counts) if side in sides}
    ends = [end for side, name in ((SOURCE, "a"), (DESTINATION, "b")) for end in ((name if side in sides else None), "f")]
    made.sheet.connection("c", owner, draw.randrange(5), *ends)
    for side in draw.sample(sides, len(sides)):
        made.lead_all(side, found[side], "f")
    made.finish()
    return made.sheet
