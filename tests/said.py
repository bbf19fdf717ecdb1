"""Axioms said as sentences, written from the tables of docs/MEANING.md ("Axioms said as sentences") and from nothing else.

said.py say WORDS: of each line of standard input, an axiom in functional syntax, it writes the sentence, or `- ` and the axiom
    where no row fits or the tokens are over 40. WORDS is a file with the reply to the request `words` (docs/PROTOCOL.md).
said.py round PROGRAM [COUNT]: so many axioms of each row, made by draws, are said and added to a wiki of the program, which has
    to tell each as just that axiom.
said.py beside PROGRAM FILE..: the lines of `PROGRAM say` on each file of requests are those that are written here for the axioms
    which the program tells of its asserted sentences.
"""
import json, random, re, subprocess, sys

MOST_TOKENS = 40
TOKEN = re.compile(r"[()]|[^\s()]+")
KINDS = dict(name=1, noun=2, of=1, verb=3, adjective=1)


class NoPattern(Exception):
    """No row of the tables fits."""


def parsed(text):
    """An axiom in functional syntax: a name, or a list of its keyword and its parts."""
    tokens = TOKEN.findall(text)

    def part(at):
        if at + 1 < len(tokens) and tokens[at + 1] == "(":
            whole, at = [tokens[at]], at + 2
            while tokens[at] != ")":
                inner, at = part(at)
                whole.append(inner)
            return whole, at + 1
        return tokens[at], at + 1

    axiom, end = part(0)
    if end != len(tokens):
        raise ValueError(f"no axiom: {text}")
    return axiom


def is_part(part, keyword, count):
    return isinstance(part, list) and part[0] == keyword and len(part) == count + 1


class Words:
    """The words of a wiki, each by its canonical form: of a noun the singular, of a verb the infinitive."""

    def __init__(self, words):
        self.words = {}
        for word in words:
            kind, forms = word["kind"], word["forms"]
            assert len(forms) == KINDS[kind], word
            self.words[":" + forms[1 if kind == "verb" else 0]] = kind, forms

    def form(self, word, kind, place=0):
        if not isinstance(word, str) or word not in self.words:
            raise NoPattern
        is_kind, forms = self.words[word]
        if is_kind != kind:
            raise NoPattern
        return forms[place]

    def name(self, word):
        return [self.form(word, "name")]

    def a(self, word, kind="noun"):
        form = self.form(word, kind)
        return ["an" if form[0] in "aeiouAEIOU" else "a", form]

    def relation(self, role):
        """The kind of a role's word, the word, and whether the role is inverted."""
        is_inverted = is_part(role, "ObjectInverseOf", 1)
        word = role[1] if is_inverted else role
        if not isinstance(word, str) or word not in self.words:
            raise NoPattern
        return self.words[word][0], word, is_inverted

    def related(self, role, what):
        kind, word, is_inverted = self.relation(role)
        if kind == "verb" and is_inverted:
            return ["is", self.form(word, "verb", 2), "by"] + what
        if is_inverted:
            raise NoPattern
        if kind == "verb":
            return [self.form(word, "verb", 0)] + what
        if kind == "adjective":
            return ["is", self.form(word, "adjective")] + what
        return ["is"] + self.a(word, "of") + ["of"] + what

    def not_related(self, role, what):
        kind, word, is_inverted = self.relation(role)
        if kind == "verb" and not is_inverted:
            return ["does", "not", self.form(word, "verb", 1)] + what
        related = self.related(role, what)
        return [related[0], "not"] + related[1:]

    def only(self, verb, noun):
        return [self.form(verb, "verb", 0), "only", self.form(noun, "noun", 1)]

    def basic(self, part):
        """The phrase of a basic class."""
        if isinstance(part, str):
            return ["is"] + self.a(part)
        if is_part(part, "ObjectComplementOf", 1):
            inner = part[1]
            if is_part(inner, "ObjectHasValue", 2):
                return self.not_related(inner[1], self.name(inner[2]))
            return ["is", "not"] + self.a(inner)
        if is_part(part, "ObjectSomeValuesFrom", 2):
            return self.related(part[1], ["something"] if part[2] == "owl:Thing" else self.a(part[2]))
        if is_part(part, "ObjectHasValue", 2):
            return self.related(part[1], self.name(part[2]))
        if is_part(part, "ObjectAllValuesFrom", 2):
            return self.only(part[1], part[2])
        raise NoPattern

    def joint(self, part):
        """The phrase of a basic class, or of an intersection of some."""
        if not (isinstance(part, list) and part[0] == "ObjectIntersectionOf"):
            return self.basic(part)
        if len(part) < 2:
            raise NoPattern
        phrase = self.basic(part[1])
        for member in part[2:]:
            phrase += ["and"] + self.basic(member)
        return phrase

    def phrase(self, part):
        if is_part(part, "ObjectUnionOf", 2):
            return self.joint(part[1]) + ["or"] + self.joint(part[2])
        return self.joint(part)

    def attribute(self, part):
        """The phrase of a class that may be said of a name."""
        is_complement = is_part(part, "ObjectComplementOf", 1) and isinstance(part[1], str)
        if not (isinstance(part, str) or is_complement or is_part(part, "ObjectSomeValuesFrom", 2)):
            raise NoPattern
        return self.basic(part)

    def membership(self, part):
        if is_part(part, "ObjectUnionOf", 2):
            return self.attribute(part[1]) + ["or"] + self.attribute(part[2])
        return self.attribute(part)

    def straight(self, role):
        if not isinstance(role, str):
            raise NoPattern
        return role

    def inclusion(self, below, above):
        """A class in a class."""
        if is_part(below, "ObjectHasValue", 2) and is_part(below[1], "ObjectInverseOf", 1):
            return self.name(below[2]) + self.only(below[1][1], above)
        if below == "owl:Thing":
            return ["everything"] + self.phrase(above)
        return ["every", self.form(below, "noun")] + self.phrase(above)

    def inclusion_of_roles(self, below, above):
        condition = ["if", "X"] + self.related(self.straight(below), ["Y"]) + ["then"]
        if is_part(above, "ObjectInverseOf", 1):
            return condition + ["Y"] + self.related(self.straight(above[1]), ["X"])
        return condition + ["X"] + self.related(self.straight(above), ["Y"])

    def transitive(self, role):
        role = self.straight(role)
        steps = ["X"] + self.related(role, ["Y"]) + ["and", "Y"] + self.related(role, ["Z"])
        return ["if"] + steps + ["then", "X"] + self.related(role, ["Z"])

    def said(self, axiom):
        """The tokens of an axiom before its full stop."""
        keyword, parts = axiom[0], axiom[1:]
        if keyword == "ClassAssertion":
            return self.name(parts[1]) + self.membership(parts[0])
        if keyword == "ObjectPropertyAssertion":
            return self.name(parts[1]) + self.related(self.straight(parts[0]), self.name(parts[2]))
        if keyword == "NegativeObjectPropertyAssertion":
            return self.name(parts[1]) + self.not_related(self.straight(parts[0]), self.name(parts[2]))
        if keyword == "SameIndividual":
            return self.name(parts[0]) + ["is"] + self.name(parts[1])
        if keyword == "DifferentIndividuals":
            return self.name(parts[0]) + ["is", "not"] + self.name(parts[1])
        if keyword == "SubClassOf":
            return self.inclusion(*parts)
        if keyword == "SubObjectPropertyOf":
            return self.inclusion_of_roles(*parts)
        if keyword == "TransitiveObjectProperty":
            return self.transitive(*parts)
        raise ValueError(f"no axiom: {axiom}")

    def tokens(self, text):
        return self.said(parsed(text)) + ["."]

    def line(self, text):
        """The line for an axiom: its sentence, else a hyphen and the axiom."""
        try:
            tokens = self.tokens(text)
        except NoPattern:
            return "- " + text
        if len(tokens) > MOST_TOKENS:
            return "- " + text
        shown = " ".join(tokens[:-1]) + "."
        return shown[0].upper() + shown[1:] if tokens[0] in ("every", "everything", "if") else shown


class Draws:
    """Axioms of each row of the tables, over a few words of each kind."""

    names, nouns, verbs = [":Mary", ":Bill", ":Émile"], [":man", ":owl", ":IOU", ":sheep", ":yak"], [":see", ":own", ":put"]
    words = [
        *(dict(kind="name", forms=[form]) for form in ("Mary", "Bill", "Émile")),
        *(dict(kind="noun", forms=forms) for forms in (["man", "men"], ["owl", "owls"], ["IOU", "IOUs"], ["sheep", "sheep"], ["yak", "yaks"])),
        *(dict(kind="verb", forms=forms) for forms in (["sees", "see", "seen"], ["owns", "own", "owned"], ["put", "put", "put"])),
        *(dict(kind="of", forms=[form]) for form in ("part", "uncle")),
        *(dict(kind="adjective", forms=[form]) for form in ("near", "afraid-of")),
    ]

    def __init__(self, seed):
        self.draw = random.Random(seed)

    def name(self):
        return self.draw.choice(self.names)

    def noun(self):
        return self.draw.choice(self.nouns)

    def verb(self):
        return self.draw.choice(self.verbs)

    def relation(self):
        return self.draw.choice(self.verbs + [":part", ":uncle", ":near", ":afraid-of"])

    def role(self):
        return self.draw.choice([self.relation(), f"ObjectInverseOf({self.verb()})"])

    def value(self):
        return f"ObjectHasValue({self.role()} {self.name()})"

    def attribute(self):
        noun = self.noun()
        return self.draw.choice([
            noun, f"ObjectComplementOf({noun})",
            *(f"ObjectSomeValuesFrom({self.role()} {what})" for what in (noun, "owl:Thing")),
        ])

    def basic(self):
        return self.draw.choice([
            self.attribute(), self.value(), f"ObjectComplementOf({self.value()})", f"ObjectAllValuesFrom({self.verb()} {self.noun()})",
        ])

    def joint(self):
        members = [self.basic() for _ in range(self.draw.randrange(2, 5))]
        return f"ObjectIntersectionOf({' '.join(members)})"

    def union(self, member):
        return f"ObjectUnionOf({member()} {member()})"

    def rows(self):
        """One axiom of each row."""
        names, classes = [f"{self.name()} {self.name()}" for _ in range(4)], []
        for below in (self.noun(), "owl:Thing"):
            classes += [f"{below} {above}" for above in (self.basic(), self.joint(), self.union(self.basic), self.union(self.joint))]
        return [
            f"ClassAssertion({self.attribute()} {self.name()})",
            f"ClassAssertion({self.union(self.attribute)} {self.name()})",
            f"ObjectPropertyAssertion({self.relation()} {names[0]})",
            f"NegativeObjectPropertyAssertion({self.relation()} {names[1]})",
            f"SameIndividual({names[2]})",
            f"DifferentIndividuals({names[3]})",
            *(f"SubClassOf({both})" for both in classes),
            f"SubClassOf(ObjectHasValue(ObjectInverseOf({self.verb()}) {self.name()}) {self.noun()})",
            f"SubObjectPropertyOf({self.relation()} {self.relation()})",
            f"SubObjectPropertyOf({self.relation()} ObjectInverseOf({self.relation()}))",
            f"TransitiveObjectProperty({self.relation()})",
        ]


def replies(program, requests, before=b""):
    """What the program replies to requests behind these lines."""
    lines = b"".join(json.dumps(request).encode() + b"\n" for request in requests)
    done = subprocess.run([program, "replay"], input=before + lines, stdout=subprocess.PIPE, check=True)
    got = done.stdout.decode().split("\n")[:-1]
    return [json.loads(line) for line in got[len(got) - len(requests):]]


def check_round(program, count):
    draws, words = Draws(15), Words(Draws.words)
    axioms = [axiom for _ in range(count) for axiom in draws.rows()]
    said = [(axiom, words.line(axiom)) for axiom in axioms if len(words.tokens(axiom)) <= MOST_TOKENS]
    requests = [dict(word, do="word") for word in Draws.words]
    for _, line in said:
        place = dict(article="Mary", at=0)
        requests += [dict(place, do="add", text=line), dict(place, do="axioms"), dict(place, do="remove")]
    told = replies(program, requests)[len(Draws.words) + 1::3]
    for (axiom, line), reply in zip(said, told):
        if reply.get("axioms") != [axiom]:
            sys.exit(f"said: {line!r} was said for {axiom}, and the program tells {reply}")
    print(f"{len(said)} axioms are told of their sentences, {len(axioms) - len(said)} have more than {MOST_TOKENS} tokens")


def known(program, lines):
    """The words and the axioms of the asserted sentences of a wiki, in the order of its articles."""
    words = replies(program, [dict(do="words")], lines)[0]["words"]
    articles = [word["forms"][1 if word["kind"] == "verb" else 0] for word in words]
    read = replies(program, [dict(do="read", article=article) for article in articles], lines)
    places = [
        dict(do="axioms", article=article, at=at)
        for article, reply in zip(articles, read)
        for at, sentence in enumerate(reply["sentences"]) if sentence["status"] == "asserted"
    ]
    return words, [axiom for reply in replies(program, places, lines) for axiom in reply["axioms"]]


def check_beside(program, path):
    with open(path, "rb") as file:
        lines = file.read()
    if lines and not lines.endswith(b"\n"):
        lines += b"\n"
    done = subprocess.run([program, "say"], input=lines, stdout=subprocess.PIPE, check=True)
    words, axioms = known(program, lines)
    expected = [Words(words).line(axiom) for axiom in axioms]
    got = done.stdout.decode().split("\n")[:-1]
    for line, other in zip(expected, got):
        if line != other:
            sys.exit(f"said: of {path} expected {line!r}, came {other!r}")
    if len(got) != len(expected):
        sys.exit(f"said: of {path} expected {len(expected)} lines, came {len(got)}")


def say_lines(path):
    with open(path, encoding="utf-8") as file:
        words = Words(json.load(file)["words"])
    for line in sys.stdin.buffer:
        sys.stdout.buffer.write(words.line(line.decode().rstrip("\n")).encode() + b"\n")


def main():
    mode, *others = sys.argv[1:]
    if mode == "say":
        say_lines(*others)
    elif mode == "round":
        check_round(others[0], int(others[1]) if len(others) > 1 else 50)
    elif mode == "beside":
        for path in others[1:]:
            check_beside(others[0], path)
    else:
        sys.exit(f"said: there is no {mode}")


if __name__ == "__main__":
    main()
