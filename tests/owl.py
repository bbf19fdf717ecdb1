"""What `export` writes behind the lines of its input, and what `check` tells of files.

owl.py PROGRAM [FILE..]: the worked runs below, files that are cut, spoiled, deep and large, what is exported of generated wikis,
checked again, and the recorded runs of the FILEs, one object of JSON a line with `words`, `input` and `output`, where each
character is one byte.
"""
import json, os, subprocess, sys
import recorded

ROOT = os.path.join(os.path.dirname(os.path.abspath(__file__)), "..")
WORDS = {
    "Bern": ("name", "Bern"), "Mary": ("name", "Mary"), "Bill": ("name", "Bill"), "city": ("noun", "city"), "country": ("noun", "country"),
    "man": ("noun", "man", "men"), "cat": ("noun", "cat", "cats"), "own": ("verb", "owns", "own", "owned"), "part": ("of", "part"),
    "located-in": ("adjective", "located-in"), "see": ("verb", "sees", "see", "seen"),
}
CITIES = ["city", "country", "Bern"]
BORDERS = [("city", "No city is a country."), ("Bern", "Bern is a city."), ("Bern", "Bern is a country.")]
PETS = ["Mary", "man", "own", "cat", "see", "Bill", "part", "located-in"]
HEAD = ["Prefix(:=<urn:acewiki:>)", "Ontology(<urn:acewiki>"]
OF_CITIES = ["Declaration(Class(:city))", "Declaration(Class(:country))", "Declaration(NamedIndividual(:Bern))"]
OF_PETS = ["Declaration(NamedIndividual(:Mary))", "Declaration(Class(:man))", "Declaration(ObjectProperty(:own))", "Declaration(Class(:cat))",
           "Declaration(ObjectProperty(:see))", "Declaration(NamedIndividual(:Bill))", "Declaration(ObjectProperty(:part))",
           "Declaration(ObjectProperty(:located-in))"]
NO_CITY = "SubClassOf(:city ObjectComplementOf(:country))"
IS_CITY = "ClassAssertion(:city :Bern)"

# The words of the command, the words of the wiki, its sentences, further lines, and the lines between the first two and the last.
EXPORTED = [
    ("export", [], [], [], []),
    ("export", CITIES, BORDERS, [], OF_CITIES + [NO_CITY, IS_CITY]),
    ("export --budget 5", CITIES, BORDERS[:2], [], OF_CITIES + [NO_CITY, IS_CITY]),
    ("export", CITIES, BORDERS[:2], [{"do": "retract", "article": "city", "at": 0}], OF_CITIES + [IS_CITY]),
    ("export", CITIES, BORDERS[:2], [{"do": "retract", "article": "city", "at": 0}, {"do": "undo"}], OF_CITIES + [NO_CITY, IS_CITY]),
    ("export", CITIES, BORDERS[:2], [{"do": "undo"}, {"do": "undo"}, {"do": "redo"}], OF_CITIES + [NO_CITY]),
    ("export", CITIES, BORDERS[1:2], [{"do": "unword", "word": "country"}], [OF_CITIES[0], OF_CITIES[2], IS_CITY]),
    ("export", CITIES, [], [{"do": "reword", "word": "city", "forms": ["town"]}, {"do": "add", "article": "Bern", "text": "Bern is a town."}],
     ["Declaration(Class(:town))", OF_CITIES[1], OF_CITIES[2], "ClassAssertion(:town :Bern)"]),
    ("export", PETS, [("Mary", "Mary owns a cat."), ("Mary", "Every man owns only cats."), ("Mary", "Mary sees Bill."),
                      ("Mary", "Mary does not see Bill."), ("man", "Every man is a part of Bill."), ("man", "If X owns Y then X sees Y."),
                      ("man", "Is Mary a man?"), ("Bill", "Bill is located-in Mary."), ("Bill", "Bill is not Mary.")], [],
     OF_PETS + ["ClassAssertion(ObjectSomeValuesFrom(:own :cat) :Mary)", "SubClassOf(:man ObjectAllValuesFrom(:own :cat))",
                "ObjectPropertyAssertion(:see :Mary :Bill)", "SubClassOf(:man ObjectHasValue(:part :Bill))",
                "SubObjectPropertyOf(:own :see)", "ObjectPropertyAssertion(:located-in :Bill :Mary)", "DifferentIndividuals(:Bill :Mary)"]),
]
REFUSED = ["export Bern", "export --events 5", "export --name Bern", "export --budget", "export --budget 1000000001",
           "check Bern", "check --events 5", "check --name Bern", "check --budget", "check --budget 1000000001"]

FILE = """Prefix(:=<http://example.org/>)
Ontology(<http://example.org/o>
Declaration(Class(:City))
AnnotationAssertion(rdfs:label :City "city"@en)
DisjointClasses(:City :Country)
ClassAssertion(:City :Bern)
%s)
"""
# What is checked, with further words of the command, and what is told.
CHECKED = [
    ("Ontology()", "", "consistent"),
    (FILE % "ClassAssertion(:Country :Bern)\n", "", "inconsistent"),
    (FILE % "ClassAssertion(:Country :Basel)\n", "", "consistent"),
    (FILE % "ClassAssertion(ObjectUnionOf(:Country owl:Nothing) :Bern)\n", "", "inconsistent"),
    ("Ontology(SubClassOf(owl:Thing owl:Nothing))", "", "inconsistent"),
    ("Ontology(SubClassOf(owl:Thing ObjectSomeValuesFrom(owl:r owl:C)) TransitiveObjectProperty(owl:r) DisjointClasses(owl:C owl:D))", "", "consistent"),
    ("Ontology(ObjectPropertyAssertion(owl:r owl:a owl:b) SymmetricObjectProperty(owl:r) NegativeObjectPropertyAssertion(owl:r owl:b owl:a))", "", "inconsistent"),
    ("Ontology(InverseObjectProperties(owl:r owl:s) ObjectPropertyAssertion(owl:r owl:a owl:b) NegativeObjectPropertyAssertion(owl:s owl:b owl:a))", "", "inconsistent"),
    ("Ontology(EquivalentClasses(owl:A owl:B owl:C) ClassAssertion(owl:A owl:a) ClassAssertion(ObjectComplementOf(owl:C) owl:a))", "", "inconsistent"),
    ("Ontology(ObjectPropertyDomain(owl:r owl:C) ObjectPropertyRange(owl:r ObjectComplementOf(owl:C)) ObjectPropertyAssertion(owl:r owl:a owl:a))", "", "inconsistent"),
    ("Ontology(SameIndividual(owl:a owl:b owl:c) DifferentIndividuals(owl:a owl:c))", "", "inconsistent"),
    ("Ontology(ClassAssertion(ObjectUnionOf(owl:C owl:D) owl:a) SubClassOf(owl:C owl:Nothing) SubClassOf(owl:D owl:Nothing))", "--budget 0", "budget"),
    ("Ontology(HasKey(", "", "Unsupported 9"),
    ("Ontology(Import(<i>))", "", "Unsupported 9"),
    ("Ontology(Declaration(Datatype(<d>)))", "", "Unsupported 21"),
    ("Ontology(SubClassOf(ObjectMinCardinality(1 <r>) <C>))", "", "Unsupported 20"),
    ("Ontology(DisjointUnion(<A> <B> <C>))", "", "Unsupported 9"),
    ("Ontology(ClassAssertion(owl:C _:b))", "", "Unsupported 30"),
    ("Ontology(ObjectPropertyAssertion(owl:topObjectProperty <a> <b>))", "", "Unsupported 33"),
    ("Ontology(ClassAssertion(:C :a))", "", "Prefix 24"),
    ("Ontology(ClassAssertion(owl:C owl:a)", "", "Syntax 36"),
    ("Ontology(ClassAssertion(owl:C))", "", "Syntax 29"),
    ("Ontology(ClassAssertion(<C a>))", "", "Syntax 24"),
    ("Ontology(<a> <b> <c>)", "", "Syntax 17"),
    ("Ontology() Ontology()", "", "Syntax 11"),
    ("Prefix(p=<x>)", "", "Syntax 7"),
    ("", "", "Syntax 0"),
    ("\ufeffOntology()", "", "Syntax 0"),
]
MOST_BYTES = 16777216


def ran(program, words, given):
    return subprocess.run([program, *words], input=given, stdout=subprocess.PIPE, stderr=subprocess.PIPE, timeout=300)


def fail(text):
    raise SystemExit("owl: " + text)


def expect(what, done, output, status=0):
    if done.returncode != status or done.stdout != output:
        fail(f"{what}: expected status {status} and {output[:500]!r}, came {done.returncode}, {done.stdout[:500]!r} and {done.stderr!r}")


def lines_of(words, sentences, more):
    lines = [dict(do="word", kind=WORDS[word][0], forms=list(WORDS[word][1:])) for word in words]
    lines += [dict(do="add", article=article, text=text) for article, text in sentences]
    return "".join(json.dumps(line) + "\n" for line in lines + more).encode()


def exports(program):
    for words, live, sentences, more, between in EXPORTED:
        file = "".join(line + "\n" for line in HEAD + between + [")"]).encode()
        expect(words, ran(program, words.split(), lines_of(live, sentences, more)), file)
        expect("the file of " + words, ran(program, ["check"], file), b"consistent\n")


def generated(program):
    """What is exported of wikis that hold together is read, and holds together."""
    for name in ("geography", "countries"):
        with open(os.path.join(ROOT, "examples", name + ".jsonl"), "rb") as it:
            file = ran(program, ["export"], it.read())
        if file.returncode != 0 or b"ClassAssertion(" not in file.stdout:
            fail(f"{name} has the file {file.stdout[:500]!r}")
        expect("the file of " + name, ran(program, ["check"], file.stdout), b"consistent\n")


def checks(program):
    for file, words, told in CHECKED:
        expect(f"{file!r} {words}", ran(program, ["check", *words.split()], file.encode()), told.encode() + b"\n")


def told(program, file):
    done = ran(program, ["check"], file)
    if done.returncode != 0 or not done.stdout.endswith(b"\n"):
        fail(f"{file[-80:]!r}: came {done.returncode}, {done.stdout[:200]!r} and {done.stderr!r}")
    return done.stdout[:-1].decode()


def cuts(program):
    """A file that is cut ends too early, or is cut in a token; what a byte that is no UTF-8 spoils is told at its token."""
    whole = (FILE % "").encode()
    end = whole.rindex(b")")
    for at in range(0, end + 1, 7):
        fault, byte = told(program, whole[:at]).split()
        if fault not in ("Syntax", "Prefix", "Unsupported") or int(byte) > at:
            fail(f"the first {at} bytes: {fault} {byte}")
    for at, byte in ((whole.index(b"city"), whole.index(b'"city"')), (whole.index(b"Bern"), whole.index(b"Bern")), (0, 0),
                     (whole.index(b"example"), whole.index(b"<http"))):
        came = told(program, whole[:at] + b"\xff" + whole[at:])
        if came.split()[1] != str(byte) and came != f"Syntax {at}":
            fail(f"a spoiled byte at {at}: {came}")
    nested = lambda depth: ("Ontology(SubClassOf(owl:A " + "ObjectComplementOf(" * depth + "owl:B" + ")" * (depth + 2)).encode()
    if told(program, nested(198)) != "consistent":
        fail("two hundred open parentheses are refused")
    at = len("Ontology(SubClassOf(owl:A ") + 199 * len("ObjectComplementOf(") - 1
    if told(program, nested(199)) != f"TooDeep {at}":
        fail(f"the 201st open parenthesis: {told(program, nested(199))}, and not TooDeep {at}")


def large(program):
    """A file has 16,777,216 bytes at most."""
    front = b"Ontology()"
    expect("the largest file", ran(program, ["check"], front + b" " * (MOST_BYTES - len(front))), b"consistent\n")
    done = ran(program, ["check"], front + b" " * (MOST_BYTES + 1 - len(front)))
    expect("a file that is too large", done, b"", 6)
    if done.stderr != b"input too large\n":
        fail(f"a file that is too large: {done.stderr!r}")


def main(program, *files):
    exports(program)
    checks(program)
    cuts(program)
    generated(program)
    large(program)
    for words in REFUSED:
        expect(words, ran(program, words.split(), b""), b"", 2)
    recorded.compare("owl", files, lambda words, given: ran(program, words, given), expect)


main(*sys.argv[1:])
