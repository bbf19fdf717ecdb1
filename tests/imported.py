"""What `acewiki import` makes of files, beside what docs/OWL.md says of it.

imported.py PROGRAM [COUNT]: files with lines worked out by hand; files that are refused, too large, and of more words and sentences
than a wiki may have; COUNT drawn files, of which the lines are those that are written here from docs/OWL.md and docs/PROTOCOL.md,
each `add` having just its axiom; and COUNT drawn wikis that come out again as they were exported.
"""
import json, os, random, re, subprocess, sys
from said import MOST_TOKENS, Draws, NoPattern, Words

ROOT = os.path.join(os.path.dirname(os.path.abspath(__file__)), "..")
MOST_BYTES, MOST_WORDS, MOST_SENTENCES, LONGEST = 16777216, 5000, 2000, 64
TOKEN = re.compile(r'[ \t\r\n]+|#[^\n]*|([()=]|<[^>\s]*>|"(?:[^"\\]|\\["\\])*"|[^\s()=<>"#]+)')
OWL = "http://www.w3.org/2002/07/owl#"
KINDS = {"Class": "noun", "ObjectProperty": "verb", "NamedIndividual": "name"}
NO_NAME = {"noun": "class", "verb": "property", "name": "individual"}


def fail(text):
    raise SystemExit("imported: " + text)


def ran(program, words, given, **more):
    streams = dict(dict(stdout=subprocess.PIPE, stderr=subprocess.PIPE), **more)
    return subprocess.run([program, *words], input=given, timeout=600, **streams)


def expect(what, done, output, errors, status=0):
    came = (done.returncode, done.stdout, done.stderr)
    if came != (status, output, errors):
        fail(f"{what}: expected {(status, output, errors)!r}\ncame {came!r}")


# ---- words


def is_form(text):
    return 0 < len(text.encode()) <= LONGEST and all(part.isalpha() for part in text.split("-"))


def base(iri, kind):
    part = re.split("[#/:]", iri)[-1]
    if is_form(part):
        return part
    parted = "".join("-" + c if before.islower() and c.isupper() else c for before, c in zip(" " + part, part))
    spelled = "".join(c if c.isalpha() else chr(ord(c) + 49) if c in "0123456789" else "-" for c in parted)
    return "-".join(filter(None, spelled.split("-"))) or NO_NAME[kind]


def with_ending(text, s_or_ed):
    """The plural of a noun and the third person of a verb, or its participle."""
    changes_y = text[-1] == "y" and text[-2:-1] not in ("", "-", "a", "e", "i", "o", "u")
    if s_or_ed == "ed":
        return text + "d" if text[-1] == "e" else text[:-1] + "ied" if changes_y else text + "ed"
    return text + "es" if re.search("(s|x|z|ch|sh)$", text) else text[:-1] + "ies" if changes_y else text + "s"


def forms(kind, text):
    third = with_ending(text, "s")
    return {"noun": [text, third], "verb": [third, text, with_ending(text, "ed")], "name": [text]}[kind]


def own_words():
    """The grammar's own words."""
    with open(os.path.join(ROOT, "grammars", "english.codeco"), encoding="utf-8") as file:
        rules = "\n".join(line.split("%")[0] for line in file)
    words = set(re.findall(r"\[([^\]\s]+)\]", rules))
    return words | {word[0].upper() + word[1:] for word in words if "a" <= word[0] <= "z"}


class Naming:
    """The words of entities, each with forms that were free."""

    own = own_words()

    def __init__(self):
        self.taken, self.attempts, self.words = set(self.own), {}, []

    def attempt(self, kind, text, number):
        """The forms at an attempt, if some fit."""
        ending = "" if number == 1 else "-" + "".join(chr(ord(digit) + 49) for digit in str(number))
        for count in [len(text)] if number == 1 else range(min(len(text), LONGEST), 0, -1):
            whole = text[:count] + ending
            if is_form(whole) and all(is_form(form) for form in forms(kind, whole)):
                return forms(kind, whole)
        return None

    def add(self, kind, iri):
        text = base(iri, kind)
        number = self.attempts.get((kind, text), 1)
        while True:
            made = self.attempt(kind, text, number)
            if made and not self.taken & set(made):
                break
            number += 1
        self.attempts[kind, text] = number
        self.taken |= set(made)
        self.words.append(dict(kind=kind, forms=made))
        return ":" + made[kind == "verb"]


# ---- files


class File:
    """What a file without a fault says: its entities, each a kind and an IRI, and its axioms."""

    def __init__(self, text):
        self.tokens = [found[1] for found in TOKEN.finditer(text) if found[1]]
        self.prefixes, self.entities, self.numbers, self.axioms, at = {"owl": OWL}, [], {}, [], 0
        while self.tokens[at] == "Prefix":
            prefix, iri = self.tokens[at + 2], self.tokens[at + 4]
            self.prefixes[prefix[:-1]] = iri[1:-1]
            at += 6
        at += 2
        while self.tokens[at].startswith("<"):
            at += 1
        while self.tokens[at] != ")":
            item, at = self.part(at)
            if item[0] == "Declaration":
                self.entity(KINDS[item[1][0]], item[1][1])
            else:
                self.axioms += self.axioms_of(*item)

    def part(self, at):
        if self.tokens[at + 1] != "(":
            return self.tokens[at], at + 1
        whole, at = [self.tokens[at]], at + 2
        while self.tokens[at] != ")":
            inner, at = self.part(at)
            if inner[0] != "Annotation":
                whole.append(inner)
        return whole, at + 1

    def iri(self, name):
        prefix, _, local = name.partition(":")
        return self.prefixes[prefix] + local

    def entity(self, kind, name):
        key = kind, self.iri(name)
        if key not in self.numbers:
            self.numbers[key] = len(self.entities)
            self.entities.append(key)
        return self.numbers[key]

    def role(self, part):
        return self.entity("verb", part) if isinstance(part, str) else ["ObjectInverseOf", self.entity("verb", part[1])]

    def individual(self, part):
        return self.entity("name", part)

    def klass(self, part):
        """A class as it is written, with entities for names."""
        if isinstance(part, str):
            iri = self.iri(part)
            if iri in (OWL + "Thing", OWL + "Nothing"):
                return "owl:Thing" if iri == OWL + "Thing" else ["ObjectComplementOf", "owl:Thing"]
            return self.entity("noun", part)
        if part[0] == "ObjectHasValue":
            return [part[0], self.role(part[1]), self.individual(part[2])]
        if part[0] in ("ObjectSomeValuesFrom", "ObjectAllValuesFrom"):
            return [part[0], self.role(part[1]), self.klass(part[2])]
        return [part[0], *map(self.klass, part[1:])]

    def axioms_of(self, keyword, *parts):
        klass, role, individual = self.klass, self.role, self.individual
        readers = {
            "SubClassOf": [klass] * 2, "SubObjectPropertyOf": [role] * 2, "ClassAssertion": [klass, individual],
            "ObjectPropertyAssertion": [role, individual, individual], "NegativeObjectPropertyAssertion": [role, individual, individual],
            "EquivalentClasses": [klass] * len(parts), "EquivalentObjectProperties": [role] * len(parts), "DisjointClasses": [klass] * len(parts),
            "ObjectPropertyDomain": [role, klass], "ObjectPropertyRange": [role, klass], "InverseObjectProperties": [role] * 2,
            "SymmetricObjectProperty": [role], "TransitiveObjectProperty": [role], "SameIndividual": [individual] * len(parts),
            "DifferentIndividuals": [individual] * len(parts),
        }
        parts = [reader(part) for reader, part in zip(readers[keyword], parts)]
        return [normal(axiom) for axiom in stated(keyword, parts)]


def inverse(role):
    return role[1] if isinstance(role, list) else ["ObjectInverseOf", role]


def stated(keyword, parts):
    """The axioms of one of a file, by the table of docs/OWL.md."""
    if keyword.startswith("Equivalent"):
        below = "SubClassOf" if keyword == "EquivalentClasses" else "SubObjectPropertyOf"
        return [[below, one, next_one] for one, next_one in zip(parts, parts[1:] + parts[:1])]
    if keyword == "DisjointClasses":
        return [["SubClassOf", one, ["ObjectComplementOf", later]] for at, one in enumerate(parts) for later in parts[at + 1:]]
    if keyword == "ObjectPropertyDomain":
        return [["SubClassOf", ["ObjectSomeValuesFrom", parts[0], "owl:Thing"], parts[1]]]
    if keyword == "ObjectPropertyRange":
        return [["SubClassOf", "owl:Thing", ["ObjectAllValuesFrom", *parts]]]
    if keyword == "InverseObjectProperties":
        return [["SubObjectPropertyOf", one, inverse(other)] for one, other in (parts, parts[::-1])]
    if keyword == "SymmetricObjectProperty":
        return [["SubObjectPropertyOf", parts[0], inverse(parts[0])]]
    if keyword == "TransitiveObjectProperty":
        return [[keyword, parts[0][1] if isinstance(parts[0], list) else parts[0]]]
    if keyword == "SameIndividual":
        return [[keyword, one, next_one] for one, next_one in zip(parts, parts[1:])]
    if keyword == "DifferentIndividuals":
        return [[keyword, one, later] for at, one in enumerate(parts) for later in parts[at + 1:]]
    return [[keyword, *parts]]


OPPOSITE = {"ObjectIntersectionOf": "ObjectUnionOf", "ObjectUnionOf": "ObjectIntersectionOf",
            "ObjectSomeValuesFrom": "ObjectAllValuesFrom", "ObjectAllValuesFrom": "ObjectSomeValuesFrom"}


def normal(part, denied=False):
    """A part in negation normal form, or its complement."""
    if not isinstance(part, list) or part[0] == "ObjectHasValue":
        return ["ObjectComplementOf", part] if denied else part
    if part[0] == "ObjectComplementOf":
        return normal(part[1], not denied)
    if part[0] in ("ObjectSomeValuesFrom", "ObjectAllValuesFrom"):
        return [OPPOSITE[part[0]] if denied else part[0], part[1], normal(part[2], denied)]
    if part[0] in OPPOSITE:
        return [OPPOSITE[part[0]] if denied else part[0], *(normal(member, denied) for member in part[1:])]
    return [part[0], *map(normal, part[1:])]


def told(part, called):
    """A part in functional-style syntax; `called` is what the entities are called."""
    if isinstance(part, list):
        return f"{part[0]}({' '.join(told(inner, called) for inner in part[1:])})"
    return called[part] if isinstance(part, int) else part


def named(part, called):
    """A part with what its entities are called."""
    return [part[0], *(named(inner, called) for inner in part[1:])] if isinstance(part, list) else called[part] if isinstance(part, int) else part


def line_of(**members):
    return json.dumps(members, sort_keys=True, ensure_ascii=False, separators=(",", ":")) + "\n"


class Import:
    """What import has to write of a file, by the rules of docs/OWL.md."""

    def __init__(self, text):
        file, naming = File(text), Naming()
        self.called = [naming.add(*entity) if at < MOST_WORDS else f"<{entity[1]}>" for at, entity in enumerate(file.entities)]
        self.entities, self.words, said = file.entities, naming.words, Words(naming.words)
        self.output = "".join(line_of(do="word", **word) for word in self.words)
        self.errors, self.added = "", []
        article_of = {form: word["forms"][word["kind"] == "verb"] for word in self.words for form in word["forms"]}
        for number, axiom in enumerate(file.axioms, 1):
            tokens = sentence(said, named(axiom, self.called))
            if tokens is None or len(self.added) == MOST_SENTENCES:
                self.errors += f"{number} {told(axiom, self.called)}\n"
                continue
            text = " ".join(tokens[:-1]) + "."
            text = text if tokens[0] in article_of else text[0].upper() + text[1:]
            article = next(article_of[token] for token in tokens if token in article_of)
            self.output += line_of(do="add", article=article, text=text)
            self.added.append((article, told(axiom, self.called)))


def sentence(said, axiom):
    """The tokens of an axiom, where it has a sentence."""
    try:
        tokens = said.said(axiom) + ["."]
    except NoPattern:
        return None
    return tokens if len(tokens) <= MOST_TOKENS else None


# ---- worked files

HEAD = "Prefix(:=<u:>)\nPrefix(x:=<v:>)\nOntology(\n"
A = "a" * 60

# Lines of a file, the lines that are written of it, and those on standard error.
WORKED = [
    ("", [], []),
    ("SubClassOf(:City :Place)\nClassAssertion(:City :Bern)\nObjectPropertyAssertion(:border :Bern :Thun)",
     [("noun", "City", "Cities"), ("noun", "Place", "Places"), ("name", "Bern"), ("verb", "borders", "border", "bordered"), ("name", "Thun"),
      ("City", "Every City is a Place."), ("Bern", "Bern is a City."), ("Bern", "Bern borders Thun.")], []),
    ("Declaration(Class(:dog))\nDeclaration(Class(:dogs))\nDeclaration(Class(x:dog))\nDeclaration(ObjectProperty(:dog))",
     [("noun", "dog", "dogs"), ("noun", "dogs-c", "dogs-cs"), ("noun", "dog-c", "dog-cs"), ("verb", "dog-ds", "dog-d", "dog-ded")], []),
    (f"Declaration(Class(:{A}aaaa))", [("noun", f"{A}a-c", f"{A}a-cs")], []),
    (f"Declaration(NamedIndividual(:{A}aa-aa))", [("name", f"{A}aa-c")], []),
    (f"Declaration(NamedIndividual(:{A}aaa))\nDeclaration(NamedIndividual(x:{A}aaa))", [("name", f"{A}aaa"), ("name", f"{A}aa-c")], []),
    ("SubClassOf(:Town :Place)\nSubClassOf(ObjectSomeValuesFrom(:r :Town) :Place)\nDisjointClasses(:Town :Place)\nClassAssertion(owl:Thing :a)",
     [("noun", "Town", "Towns"), ("noun", "Place", "Places"), ("verb", "rs", "r", "red"), ("name", "a-c"),
      ("Town", "Every Town is a Place."), ("Town", "Every Town is not a Place.")],
     ["2 SubClassOf(ObjectSomeValuesFrom(:r :Town) :Place)", "4 ClassAssertion(owl:Thing :a-c)"]),
    ("EquivalentClasses(:A :B owl:Nothing)\nObjectPropertyRange(:r :A)\nInverseObjectProperties(:r :s)\nTransitiveObjectProperty(ObjectInverseOf(:r))",
     [("noun", "A-c", "A-cs"), ("noun", "B", "Bs"), ("verb", "rs", "r", "red"), ("verb", "ses", "s", "sed"),
      ("A-c", "Every A-c is a B."), ("r", "Everything rs only A-cs."), ("r", "If X rs Y then Y ses X."), ("s", "If X ses Y then Y rs X."),
      ("r", "If X rs Y and Y rs Z then X rs Z.")],
     ["2 SubClassOf(:B ObjectComplementOf(owl:Thing))", "3 SubClassOf(ObjectComplementOf(owl:Thing) :A-c)"]),
    ("SubClassOf(:Dog ObjectComplementOf(ObjectSomeValuesFrom(:own ObjectComplementOf(:Bone))))",
     [("noun", "Dog", "Dogs"), ("verb", "owns", "own", "owned"), ("noun", "Bone", "Bones"), ("Dog", "Every Dog owns only Bones.")], []),
]
# Last parts, and the name of an individual.
PARTS = [
    ("Bern", "Bern"), ("city-state", "city-state"), ("cityState", "cityState"), ("cityState2", "city-Statec"), ("city_state", "city-state"),
    ("HTTPServer2", "HTTPServerc"), ("_a__b_", "a-b"), ("2024", "cace"), ("a/b", "b"), ("a:b", "b"), ("a%20b", "a-cab"), ("_", "individual"),
    ("a/", "individual"), ("é1", "éb"), ("éÉ1", "é-Éb"), ("every", "every-c"), ("If", "If-c"), ("X", "X-c"), ("x", "x"), ("-a", "a-c"), ("-ab-", "ab"), ("0123456789", "abcdefghij"),
]
REFUSED = [("Ontology(HasKey(", "Unsupported 9"), ("", "Syntax 0"), ("Ontology(ClassAssertion(:C :a))", "Prefix 24"), ("Ontology(ClassAssertion(owl:C owl:a)", "Syntax 36"),
           ("Ontology(SubClassOf(owl:A " + "ObjectComplementOf(" * 199, f"TooDeep {25 + 198 * 19 + 19}")]


def written(row):
    kind, *rest = row
    return line_of(do="word", kind=kind, forms=rest) if kind in NO_NAME else line_of(do="add", article=kind, text=rest[0])


def worked(program):
    for lines, output, errors in WORKED:
        text = f"{HEAD}{lines}\n)\n"
        expect(lines, ran(program, ["import"], text.encode()), "".join(map(written, output)).encode(), "".join(line + "\n" for line in errors).encode())
        if (Import(text).output, Import(text).errors) != ("".join(map(written, output)), "".join(line + "\n" for line in errors)):
            fail(f"{lines}: the rules are written otherwise here")
    for part, form in PARTS:
        text = f"{HEAD}Declaration(NamedIndividual(:{part}))\n)"
        expect(part, ran(program, ["import"], text.encode()), written(("name", form)).encode(), b"")


def ends(program):
    """Files that are refused, words that are no command, and outputs that fail."""
    for text, fault in REFUSED:
        expect(text[:100], ran(program, ["import"], text.encode()), b"", fault.encode() + b"\n")
    for words in (["import", "Bern"], ["import", "--budget", "5"], ["import", "import"]):
        expect(" ".join(words), ran(program, words, b""), b"", b"usage: acewiki replay|serve|make|help\n", 2)
    text = f"{HEAD}{WORKED[6][0]}\n)".encode()
    output = "".join(map(written, WORKED[6][1])).encode()
    with open("/dev/full", "wb") as full:
        expect("standard error that is full", ran(program, ["import"], text, stderr=full), output, None)
        expect("an output that is full", ran(program, ["import"], text, stdout=full), None, b"write fault\n", 4)
    front = b"Ontology()"
    expect("the largest file", ran(program, ["import"], front + b" " * (MOST_BYTES - len(front))), b"", b"")
    expect("a file that is too large", ran(program, ["import"], front + b" " * (MOST_BYTES + 1 - len(front))), b"", b"input too large\n", 6)


def limits(program):
    """More entities than words, and more sentences than a wiki may have."""
    individuals = "".join(f"Declaration(NamedIndividual(:n{number}))\n" for number in range(MOST_WORDS))
    compare(program, f"{HEAD}{individuals}SameIndividual(:n7 :last)\nSameIndividual(:n7 :n8)\nClassAssertion(x:c x:d)\n)")
    compare(program, HEAD + "".join(f"SameIndividual(:n{number % 7} :n{number % 11})\n" for number in range(MOST_SENTENCES + 5)) + ")")
    compare(program, HEAD + "".join(f"Declaration(Class(:{number}/Same))\n" for number in range(300)) + ")")


# ---- drawn files


class FileDraws(Draws):
    """Files whose names need every rule of docs/OWL.md."""

    parts = ["city", "City", "cities", "city-c", "cityState", "cityState2", "a1", "a-b", "_", "every", "If", "is", "X", "dog", "dogs", "dog-c", "fly", "bus",
             "é1", "éÉ", "Жук", "2024", "own", "owns", "a" * 63, "a" * 64, "a" * 70, "long-" * 13 + "name", "b%20c", "d.e", "IOU", "y", "x/z", "x/", "Straße"]

    def __init__(self, seed):
        super().__init__(seed)
        parts = self.draw.sample(self.parts, 12)
        self.names, self.nouns, self.verbs = ([self.spelled(part) for part in self.draw.choices(parts, k=6)] for _ in range(3))

    def spelled(self, part):
        return self.draw.choice(["", "x"]) + self.draw.choice([":", ":", ":q/", ":q:"]) + part

    def relation(self):
        return self.verb()

    def deep(self, depth=3):
        """Any class."""
        keyword = self.draw.choice(["", "", "Thing", "ObjectComplementOf", "ObjectUnionOf", "ObjectIntersectionOf", "ObjectSomeValuesFrom", "ObjectAllValuesFrom", "ObjectHasValue"])
        if keyword == "Thing":
            return self.draw.choice(["owl:Thing", "owl:Nothing"])
        if not keyword or not depth:
            return self.noun()
        if keyword == "ObjectHasValue":
            return self.value()
        inner = [self.deep(depth - 1) for _ in range(1 if keyword == "ObjectComplementOf" else 2)]
        return f"{keyword}({' '.join(inner if keyword.endswith('Of') else [self.role(), inner[0]])})"

    def further(self):
        """An axiom of each keyword, of which many have no sentence."""
        few = lambda drawn: " ".join(drawn() for _ in range(self.draw.randint(2, 4)))
        return [
            f"SubClassOf({self.deep()} {self.deep()})", f"ClassAssertion({self.deep()} {self.name()})", f"EquivalentClasses({few(self.basic)})",
            f"EquivalentObjectProperties({few(self.role)})", f"DisjointClasses({few(self.noun)})", f"ObjectPropertyDomain({self.role()} {self.noun()})",
            f"ObjectPropertyRange({self.role()} {self.noun()})", f"InverseObjectProperties({self.role()} {self.role()})", f"SymmetricObjectProperty({self.role()})",
            f"TransitiveObjectProperty({self.role()})", f"SameIndividual({few(self.name)})", f"DifferentIndividuals({few(self.name)})",
            f"ObjectPropertyAssertion({self.role()} {self.name()} {self.name()})", f"NegativeObjectPropertyAssertion({self.role()} {self.name()} {self.name()})",
            f"Declaration(Class({self.noun()}))", f"Declaration(Annotation(:k \"(\") ObjectProperty({self.verb()}))", "# Nothing stands here.",
        ]

    def file(self):
        items = self.rows() + self.further()
        self.draw.shuffle(items)
        return HEAD + "".join(item + "\n" for item in items) + ")\n"


def compare(program, text):
    """Whether the lines of a file are those of the rules. It returns what it has to be."""
    wanted = Import(text)
    done = ran(program, ["import"], text.encode())
    for came, other in ((done.stdout, wanted.output), (done.stderr, wanted.errors)):
        lines, others = came.decode().splitlines(), other.splitlines()
        for line, another in zip(lines, others):
            if line != another:
                fail(f"expected {another}\ncame {line}, of\n{text}")
        if len(lines) != len(others) or done.returncode:
            fail(f"expected {len(others)} lines, came {len(lines)} and status {done.returncode}, of\n{text[:5000]}")
    return wanted


def drawn(program, count):
    """Drawn files, and what their sentences mean in a wiki that the lines make."""
    sentences = others = 0
    for number in range(count):
        wanted = compare(program, FileDraws(number).file())
        lengths, asked = {}, ""
        for article, _ in wanted.added:
            lengths[article] = lengths.get(article, -1) + 1
            asked += line_of(do="axioms", article=article, at=lengths[article])
        replies = [json.loads(line) for line in ran(program, ["replay", "--budget", "100"], (wanted.output + asked).encode()).stdout.splitlines()]
        for reply, (_, axiom) in zip(replies[len(wanted.words) + len(wanted.added):], wanted.added):
            if reply.get("axioms") != [axiom]:
                fail(f"the sentence of {axiom} has {reply}, in the wiki\n{wanted.output}")
        if any("refused" in reply for reply in replies):
            fail(f"a line is refused of\n{wanted.output}")
        sentences, others = sentences + len(wanted.added), others + wanted.errors.count("\n")
    print(f"imported: of {count} drawn files {sentences} axioms are said and {others} left out")


# ---- there and back


class WikiDraws(Draws):
    """A wiki of drawn words and sentences."""

    def __init__(self, seed):
        super().__init__(seed)
        parts = self.draw.sample(["".join(self.draw.choice(["ba", "ke", "Mi", "to", "y", "es", "-lo", "é", "ch"]) for _ in range(3)) for _ in range(60)], 40)
        parts = [part for part in dict.fromkeys(part.strip("-") for part in parts) if is_form(part)]
        self.words, taken = [], set(Naming.own)
        for part in parts:
            word = dict(kind=self.draw.choice(["noun", "verb", "name"]), forms=[])
            word["forms"] = [form + self.draw.choice(["", "q"]) if at != (word["kind"] == "verb") else form for at, form in enumerate(forms(word["kind"], part))]
            if not taken & set(word["forms"]):
                taken |= set(word["forms"])
                self.words.append(word)
        self.nouns, self.verbs, self.names = ([":" + word["forms"][kind == "verb"] for word in self.words if word["kind"] == kind] for kind in ("noun", "verb", "name"))

    def relation(self):
        return self.verb()

    def lines(self):
        said = Words(self.words)
        text = "".join(line_of(do="word", **word) for word in self.words)
        for axiom in self.rows():
            article = self.draw.choice(self.words)
            text += line_of(do="add", article=article["forms"][article["kind"] == "verb"], text=said.line(axiom))
        return text


def there_and_back(program, count):
    """What is exported, imported and exported again has the same lines, where each name is left as it is and each axiom has a sentence."""
    same = 0
    for number in range(count):
        draws = WikiDraws(number)
        if not (draws.nouns and draws.verbs and draws.names):
            continue
        file = ran(program, ["export"], draws.lines().encode()).stdout.decode()
        wanted = Import(file)
        kept = [":" + iri[len("urn:acewiki:"):] for _, iri in wanted.entities] == wanted.called
        done = ran(program, ["import"], file.encode())
        expect(file, done, wanted.output.encode(), wanted.errors.encode())
        if kept and not wanted.errors:
            again = ran(program, ["export"], done.stdout).stdout.decode()
            if sorted(again.splitlines()) != sorted(file.splitlines()):
                fail(f"of\n{draws.lines()}was exported\n{file}and behind its import\n{again}")
            same += 1
    if 2 * same < count:
        fail(f"of {count} wikis only {same} could come again")
    print(f"imported: {same} of {count} drawn wikis keep their names and are exported again as they were; the others get other names")


def main(program, count="40"):
    worked(program)
    ends(program)
    limits(program)
    drawn(program, int(count))
    there_and_back(program, int(count))


main(*sys.argv[1:])
