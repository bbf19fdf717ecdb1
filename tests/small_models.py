"""An exhaustive search for models of few elements, written from docs/MEANING.md ("Interpretations", "Classes" and "Axioms") and from
nothing else.

Nothing is left out but what differs by other numbers for the elements. A truth table has a bit for each way in which the nouns may
have elements and the verbs pairs of them; the table of a class at an element, and that of an axiom, say in which of these it holds.
"""
from said import parsed


def placings(names, size):
    """The elements that names may have, the first new one being the least that no name before has."""
    if not names:
        return [{}]
    return [dict(before, **{names[-1]: element}) for before in placings(names[:-1], size)
            for element in range(min(size, max(before.values(), default=-1) + 2))]


def variable(place, count):
    """The table of one of so many variables."""
    bits, length = ((1 << (1 << place)) - 1) << (1 << place), 2 << place
    while length < 1 << count:
        bits, length = bits | bits << length, 2 * length
    return bits


class Tables:
    """The truth tables over so many elements, where the names have theirs. Axioms are lists of a keyword and parts (said.py)."""

    def __init__(self, size, nouns, verbs, elements):
        self.places, self.elements = range(size), elements
        count = size * len(nouns) + size * size * len(verbs)
        tables = iter(variable(place, count) for place in range(count))
        self.all = (1 << (1 << count)) - 1
        self.nouns = {noun: [next(tables) for _ in self.places] for noun in nouns}
        self.pairs = {verb: [[next(tables) for _ in self.places] for _ in self.places] for verb in verbs}

    def everywhere(self, tables):
        whole = self.all
        for table in tables:
            whole &= table
            if not whole:
                break
        return whole

    def somewhere(self, tables):
        whole = 0
        for table in tables:
            whole |= table
        return whole

    def where(self, condition, then):
        return self.all ^ condition | then

    def pair(self, role, one, other):
        return self.pairs[role[1]][other][one] if isinstance(role, list) else self.pairs[role][one][other]

    def member(self, part, at):
        """Where an element is in a class."""
        if isinstance(part, str):
            return self.all if part == "owl:Thing" else self.nouns[part][at]
        keyword, first, *others = part
        if keyword == "ObjectComplementOf":
            return self.all ^ self.member(first, at)
        if keyword == "ObjectIntersectionOf":
            return self.everywhere(self.member(one, at) for one in [first, *others])
        if keyword == "ObjectUnionOf":
            return self.somewhere(self.member(one, at) for one in [first, *others])
        if keyword == "ObjectSomeValuesFrom":
            return self.somewhere(self.pair(first, at, other) & self.member(others[0], other) for other in self.places)
        if keyword == "ObjectAllValuesFrom":
            return self.everywhere(self.where(self.pair(first, at, other), self.member(others[0], other)) for other in self.places)
        if keyword == "ObjectHasValue":
            return self.pair(first, at, self.elements[others[0]])
        raise ValueError(f"no class: {part}")

    def axiom(self, axiom):
        """Where an axiom is true."""
        keyword, *parts = axiom
        if keyword == "SubClassOf":
            return self.everywhere(self.where(self.member(parts[0], at), self.member(parts[1], at)) for at in self.places)
        if keyword == "SubObjectPropertyOf":
            return self.everywhere(self.where(self.pair(parts[0], one, other), self.pair(parts[1], one, other))
                                   for one in self.places for other in self.places)
        if keyword == "TransitiveObjectProperty":
            return self.everywhere(self.where(self.pair(parts[0], one, middle) & self.pair(parts[0], middle, other), self.pair(parts[0], one, other))
                                   for one in self.places for middle in self.places for other in self.places)
        if keyword == "ClassAssertion":
            return self.member(parts[0], self.elements[parts[1]])
        if keyword == "ObjectPropertyAssertion":
            return self.pair(parts[0], self.elements[parts[1]], self.elements[parts[2]])
        if keyword == "NegativeObjectPropertyAssertion":
            return self.all ^ self.pair(parts[0], self.elements[parts[1]], self.elements[parts[2]])
        if keyword in ("SameIndividual", "DifferentIndividuals"):
            is_same = self.elements[parts[0]] == self.elements[parts[1]]
            return self.all if is_same == (keyword == "SameIndividual") else 0
        raise ValueError(f"no axiom: {axiom}")


class SmallModels:
    """All interpretations of at most so many elements of these words. Axioms are texts."""

    def __init__(self, nouns, verbs, names, most=3):
        self.tables = [Tables(size, nouns, verbs, elements) for size in range(1, most + 1) for elements in placings(names, size)]
        self.known = {}

    def where(self, place, text):
        if (place, text) not in self.known:
            if len(self.known) == 200:
                self.known.clear()
            self.known[place, text] = self.tables[place].axiom(parsed(text))
        return self.known[place, text]

    def has_model(self, axioms):
        """Whether axioms are true together in one of the interpretations."""
        return any(tables.everywhere(self.where(place, text) for text in axioms) for place, tables in enumerate(self.tables))
