"""Whether another reasoner reads what `acewiki export` writes, and tells of files what `acewiki check` tells.

exported.py PROGRAM COUNT: so many small wikis are drawn (reasons.py says how). What is exported of each has a declaration of each word,
and `check` and Konclude (Debian's package `konclude`) find it consistent. Then the axioms of all
its sentences, those of red and retracted ones too, stand in one file, of which both tell a verdict. Where these differ, an
exhaustive search through all interpretations of up to three elements is asked, and the wiki is told; what it decides for the
program is counted, and what it decides against it, or leaves open, fails.
"""
import os, random, re, shutil, subprocess, sys, tempfile
from reasons import BUDGET, SHAPES, SmallModels, SmallWiki

KINDS = {"noun": "Class", "name": "NamedIndividual"}
KONCLUDE = shutil.which("Konclude") or shutil.which("konclude")
SEED = 20_261


def fail(text):
    raise SystemExit("exported: " + text)


def ran(program, command, given):
    done = subprocess.run([program, command, *BUDGET], input=given.encode(), stdout=subprocess.PIPE, stderr=subprocess.PIPE, timeout=120)
    if done.returncode != 0:
        fail(f"{command} ended with {done.returncode} and {done.stderr!r}")
    return done.stdout.decode()


def told_by_konclude(room, file):
    name = os.path.join(room, "wiki.ofn")
    with open(name, "w", encoding="utf-8") as it:
        it.write(file)
    try:
        done = subprocess.run([KONCLUDE, "consistency", "-w", "2", "-i", name], stdout=subprocess.PIPE, stderr=subprocess.STDOUT, timeout=20)
    except subprocess.TimeoutExpired:
        return "nothing within 20 seconds"
    said = done.stdout.decode()
    found = [verdict for verdict in ("inconsistent", "consistent") if f"is {verdict}." in said]
    return found[0] if found else "nothing: " + said[-300:]


def file_of(head, axioms):
    return "\n".join([*head, *axioms, ")"]) + "\n"


class Comparison:
    """What was compared so far."""

    def __init__(self):
        self.models = [SmallModels(*shape) for shape in SHAPES]
        self.axioms, self.told, self.erred = 0, {"consistent": 0, "inconsistent": 0}, []

    def exported(self, program, room, wiki):
        """The head of the exported file, once its axioms are looked at."""
        file = ran(program, "export", wiki.lines())
        lines = file.splitlines()
        head = lines[:2 + len(wiki.draws.words)]
        declared = [f"Declaration({KINDS.get(word['kind'], 'ObjectProperty')}(:{word['forms'][word['kind'] == 'verb']}))" for word in wiki.draws.words]
        if head != ["Prefix(:=<urn:acewiki:>)", "Ontology(<urn:acewiki>", *declared] or lines[-1] != ")":
            fail(f"{wiki.lines()}has the file {file}")
        self.axioms += len(lines) - len(head) - 1
        for told in (ran(program, "check", file).strip(), told_by_konclude(room, file)):
            if told != "consistent":
                fail(f"{file}is told {told}")
        return head

    def compared(self, program, room, wiki, shape, head):
        """The verdicts on the axioms of all sentences."""
        axioms = [meaning for sentences in wiki.articles.values() for text, meaning, _ in sentences if meaning and not text.endswith("?")]
        file = file_of(head, axioms)
        ours, theirs = ran(program, "check", file).strip(), told_by_konclude(room, file)
        if ours == theirs:
            self.told[ours] += 1
        elif self.models[shape].has_model(axioms) == (ours == "consistent"):
            self.erred.append((ours, theirs, file))
        else:
            fail(f"{file}is told {ours}, and by Konclude {theirs}")


def main(program, count):
    if KONCLUDE is None:
        print("exported: Konclude is missing (Debian's konclude has it)")
        raise SystemExit(77)
    comparison = Comparison()
    with tempfile.TemporaryDirectory() as room:
        for number in range(int(count)):
            draw = random.Random(SEED + number)
            shape = draw.randrange(len(SHAPES))
            wiki = SmallWiki(draw, *SHAPES[shape])
            head = comparison.exported(program, room, wiki)
            comparison.compared(program, room, wiki, shape, head)
    print(f"exported: {count} wikis with {comparison.axioms} axioms are read by Konclude; of all axioms it tells what `check` tells, of {comparison.told['consistent']} "
          f"files that they are consistent, of {comparison.told['inconsistent']} that they aren't; it errs of {len(comparison.erred)}")
    others = [it for it in comparison.erred if not re.search(r"DifferentIndividuals\((\S+) \1\)", it[2])]
    print(f"exported: {len(comparison.erred) - len(others)} of these say that an individual differs from itself")
    for ours, theirs, file in others[:3]:
        print(f"told {ours}, and by Konclude {theirs}:\n{file}")


if __name__ == "__main__":
    main(*sys.argv[1:])
