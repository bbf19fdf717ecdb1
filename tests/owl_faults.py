"""owl_faults.py PROGRAM FILE: the first faults that `check` tells of files in the functional-style syntax of OWL 2, worked out by hand.

A line of FILE has what is wanted, a place, and a text as JSON has it, with tabs between them. Where the place is a number the text is
the line that stands at that place in the file below, and the fault is counted from the byte at which that line begins; else the text
is the whole file, and each of its characters is a byte. `read` is wanted of a file that has no fault. Beside these stand files that
are cut off at any byte, and some with as many parentheses open as may be, and one more.
"""
import json, subprocess, sys

# A file of some twenty lines.
LINES = [
    "Prefix(:=<http://example.org/>)",
    "Prefix(e:=<http://example.org/e#>) # a comment",
    "Ontology(<http://example.org/o> <http://example.org/o/1>",
    'Annotation(rdfs:comment "all of it"@en)',
    "Declaration(Class(:City))",
    "Declaration(ObjectProperty(e:in))",
    "Declaration(NamedIndividual(:Bern))",
    "Declaration(AnnotationProperty(:note))",
    'AnnotationAssertion(:note :City "a \\"place\\"")',
    "SubClassOf(:City ObjectSomeValuesFrom(e:in :Country))",
    "EquivalentClasses(:Town ObjectUnionOf(:City :Village))",
    "DisjointClasses(:City :Country)",
    "SubObjectPropertyOf(ObjectInverseOf(e:in) e:has)",
    "ObjectPropertyDomain(e:in :Place)",
    "TransitiveObjectProperty(e:in)",
    "ClassAssertion(:City :Bern)",
    "ObjectPropertyAssertion(e:in :Bern :Switzerland)",
    'NegativeObjectPropertyAssertion(Annotation(:note "no") e:in :Bern :France)',
    "DifferentIndividuals(:Bern :Rome :Paris)",
    ")",
]
WHOLE = "".join(line + "\n" for line in LINES).encode()
SMALL = b"Prefix(:=<u:>)\nOntology(\nClassAssertion(:C :a)\n)\n"


def cut_off():
    """The fronts of a small file, each with its fault; the last one lacks the newline alone."""
    for end in range(len(SMALL)):
        wanted = f"Syntax {end}"
        if 1 <= end <= 5:
            wanted = "Syntax 0"
        elif 10 <= end <= 12:
            wanted = "Syntax 9"
        elif 16 <= end <= 22:
            wanted = "Syntax 15"
        elif 26 <= end <= 38:
            wanted = "Unsupported 25"
        elif end == 48:
            wanted = "read"
        yield wanted, SMALL[:end]
    yield "read", SMALL


def nested(depth):
    return ("Prefix(:=<u:>)Ontology(ClassAssertion(" + "ObjectComplementOf(" * depth + ":A" + ")" * depth + " :a))").encode()


def annotated(depth):
    return ("Ontology(Annotation(" + "(" * depth + ")" * depth + "))").encode()


# The ontology and the assertion are two of the 200 parentheses that may be open; the last one of 199 is the 201st.
DEEP = [("read", nested(198)), (f"TooDeep {38 + 199 * 19 - 1}", nested(199)), ("read", annotated(198)), (f"TooDeep {20 + 198}", annotated(199))]


def with_line(place, line):
    """The file with another line in the place of one, and the byte at which that line begins."""
    lines = [*LINES[:place], line, *LINES[place + 1 :]]
    return "".join(it + "\n" for it in lines).encode(), len("".join(it + "\n" for it in lines[:place]).encode())


def rows(name):
    """What is wanted of each file, the file, and the byte from which its fault is counted."""
    with open(name, encoding="utf-8") as it:
        found = [line.split("\t", 2) for line in it.read().split("\n") if line and not line.startswith("#")]
    for wanted, place, text in found:
        text = json.loads(text)
        yield (wanted, text.encode("latin-1"), 0) if place == "-" else (wanted, *with_line(int(place), text))


def told(program, file, begin):
    """What `check` tells: `read`, or the fault with the bytes from `begin` to it."""
    done = subprocess.run([program, "check"], input=file, stdout=subprocess.PIPE, stderr=subprocess.PIPE, timeout=60)
    said = done.stdout.decode().split()
    if done.returncode != 0 or not said:
        sys.exit(f"owl_faults: {file[:300]!r}: status {done.returncode} and {done.stdout!r}")
    if len(said) == 1:
        return "read" if said[0] in ("consistent", "inconsistent", "budget") else said[0]
    return f"{said[0]} {max(int(said[1]) - begin, 0)}"


def main(program, name):
    files = [*rows(name)]
    if not files:
        sys.exit(f"owl_faults: {name} has no file")
    files += [(wanted, file, 0) for wanted, file in [("read", WHOLE), *cut_off(), *DEEP]]
    for wanted, file, begin in files:
        came = told(program, file, begin)
        if came != wanted:
            sys.exit(f"owl_faults: {file[:300]!r}: expected {wanted}, came {came}")
    print(f"owl_faults: {len(files)} files have their replies")


main(*sys.argv[1:])
