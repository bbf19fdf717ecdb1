"""Larger wikis, drawn by a seed: of all that docs/MEANING.md has an axiom for, or of `every`, `a`, `and` and names alone."""
import random
from reasons import SmallDraws
from said import Words, parsed
from sharing import letters, word


def drawn_words(draw, nouns, verbs, names):
    """So many words of three kinds, of which none begins with a vowel letter."""
    return [*(word("noun", f"noun{letters(number)}", f"noun{letters(number)}s") for number in range(nouns)),
            *(word("verb", f"verb{letters(number)}s", f"verb{letters(number)}", f"verb{letters(number)}ed") for number in range(verbs)),
            *(word("name", f"Name{letters(number)}") for number in range(names))]


class LargeDraws(SmallDraws):
    """The sentences of SmallDraws over any words, and ones that say more at once."""

    def __init__(self, draw, requests):
        self.draw, self.words, self.ahead = draw, requests, []
        self.nouns, self.verbs, self.names = ([":" + one["forms"][kind == "verb"] for one in requests if one["kind"] == kind]
                                              for kind in ("noun", "verb", "name"))
        self.said = Words(requests)

    def phrase(self):
        return self.said.basic(parsed(self.basic()))

    def further(self):
        """A sentence that no axiom is said as."""
        draw, said, verb = self.draw, self.said, self.verb()
        one, other = self.phrase(), self.phrase()
        noun, more, name = said.form(self.noun(), "noun"), said.form(self.noun(), "noun"), said.name(self.name())
        third, infinitive, done = (said.form(verb, "verb", place) for place in range(3))
        if draw.random() < 0.5:
            return super().further()
        return draw.choice([
            (["every", noun, third, "a", more, "that", *one], None),
            (["every", noun, "that", *one, "or", "that", *other, "is", "a", more], None),
            (["every", noun, third, "nothing", "that", *one], None),
            (["every", noun, "is", done, "by", "a", more], None),
            ([*name, third, "a", noun, "that", *one, "and", "that", *other], None),
            ([*name, third, "no", noun, "that", *one], None),
            ([*name, "is", "a", noun, "or", "is", "a", more, "or", *one], None),
            (["if", "X", third, "Y", "then", "Y", third, "X"], None),
        ])


def every_construct(seed):
    """The words and 50 to 300 sentences of a wiki. Sentences on everything are rare in some, since they leave others little to choose,
    and so are those on verbs: with many of them each verb is soon transitive and symmetric."""
    draw = random.Random(seed)
    draws = LargeDraws(draw, drawn_words(draw, draw.randint(5, 60), draw.randint(2, 8), draw.randint(3, 40)))
    count, on_everything, on_verbs, sentences = draw.randint(50, 300), draw.choice([0, 0.1, 1]), draw.choice([0, 0.1, 1]), []
    while len(sentences) < count:
        text = draws.sentence()[0]
        first = text.split()[0]
        if draw.random() < (on_verbs if first == "If" else on_everything if first in ("Everything", "Nothing", "Something") else 1):
            sentences.append(text)
    return draws.words, [dict(do="add", article="nounaaa", text=text) for text in sentences]


def without_choices(seed):
    """The words and 500 to 2,000 sentences of a wiki, in which nothing is left to choose. In every second wiki some nouns exclude others."""
    draw = random.Random(seed)
    words = drawn_words(draw, draw.randint(20, 400), draw.randint(1, 8), draw.randint(1, 200))
    nouns, verbs, names = ([one["forms"][0] for one in words if one["kind"] == kind] for kind in ("noun", "verb", "name"))

    def phrase(depth=0):
        noun, verb, name = draw.choice(nouns), draw.choice(verbs), draw.choice(names)
        more = f" that {phrase(1)}" if depth == 0 else ""
        return draw.choice([f"is a {noun}", f"{verb} a {noun}", f"{verb} {name}", f"{verb} a {noun}{more}"])

    def sentence():
        noun, more, verb, name = draw.choice(nouns), draw.choice(nouns), draw.choice(verbs), draw.choice(names)
        return draw.choices([
            f"Every {noun} is a {more}.", f"Every {noun} {verb} a {more}.", f"Every {noun} {phrase()} and {phrase()}.",
            f"Every {noun} that {phrase(1)} {phrase()}.", f"Every {noun} that {phrase(1)} and that {phrase(1)} is a {more}.",
            f"Everything that {phrase(1)} is a {more}.", f"{name} is a {noun}.", f"{name} {phrase()}.", f"{name} {phrase()} and {phrase()}.",
            f"If X {verb} Y then X {draw.choice(verbs)} Y.", f"If X {verb} Y and Y {verb} Z then X {verb} Z.", f"No {noun} is a {more}.",
        ], [20, 20, 10, 8, 4, 6, 10, 10, 4, 0.2, 0.1, 3 * (seed % 2)])[0]

    return words, [dict(do="add", article="nounaaa", text=sentence()) for _ in range(draw.randint(500, 2000))]
