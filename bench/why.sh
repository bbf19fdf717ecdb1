#!/usr/bin/env bash
# bench/why.sh [RUNS]: how long `acewiki why` and `acewiki say` take beyond `acewiki replay` of the same lines, on the proved
# program (PROGRAM names another): seconds of processor time, each the least of RUNS runs, five where it isn't given. The lines are
# the first sentences of `make 2000 7` with a contradictory pair among their words, with one of words that are older than all
# others, and with chains of 20 sentences, whose words are the oldest ones, so that nearly all other sentences stand behind them;
# then a transitive chain of 201 sentences by itself; and for `say` the 2,000 sentences alone.
set -eu
root="$(cd "$(dirname "${BASH_SOURCE[0]}")/.." && pwd)"
program="${PROGRAM:-$("$root/bench/program" acewiki)}"
python3 - "$program" "${1:-5}" <<'PY'
import json, os, resource, subprocess, sys, tempfile

program, runs = sys.argv[1], int(sys.argv[2])
letters = "abcdefghijklmnopqrst"
nouns, names, verbs = ["noun" + x for x in letters], ["Name" + x for x in letters], ["verb" + x for x in letters[:10]]


def word(kind, *forms):
    return {"do": "word", "kind": kind, "forms": list(forms)}


def add(article, text):
    return {"do": "add", "article": article, "text": text}


def made(count, state=7):
    lines = [word("noun", x, x + "s") for x in nouns] + [word("name", x) for x in names] + [word("verb", x + "s", x, x + "ed") for x in verbs]
    for n in range(count):
        drawn = []
        for _ in range(3):
            state = (75 * state + 74) % 65537
            drawn.append(state)
        a, b, c = drawn
        i = a % 19
        lines.append(
            [
                lambda: add(names[a % 20], f"{names[a % 20]} {verbs[b % 10]}s {names[c % 20]}."),
                lambda: add(nouns[i], f"Every {nouns[i]} is a {nouns[i + 1 + b % (19 - i)]}."),
                lambda: add(names[a % 20], f"{names[a % 20]} is a {nouns[b % 20]}."),
                lambda: add(nouns[a % 20], f"Every {nouns[a % 20]} {verbs[b % 10]}s only {nouns[c % 20]}s."),
                lambda: add(nouns[a % 20], f"Which {nouns[a % 20]}s {verbs[b % 10]} {names[c % 20]}?"),
            ][n % 5]()
        )
    return lines


def numbered(base, n):
    return base + letters[n // 20] + letters[n % 20]


def classes(count):  # a chain of classes: words and sentences
    steps = [numbered("step", n) for n in range(count - 1)]
    chain = [add(x, f"Every {x} is a {y}.") for x, y in zip(steps, steps[1:])]
    ends = [add("Sam", f"Sam is a {steps[0]}."), add("Sam", f"Sam is not a {steps[-1]}.")]
    return [word("noun", x, x + "s") for x in steps] + [word("name", "Sam")], chain + ends


def leads(count):  # a transitive chain: words and sentences
    people = [numbered("Person", n) for n in range(count - 1)]
    chain = [add(x, f"{x} leads {y}.") for x, y in zip(people, people[1:])]
    ends = [add(people[0], f"{people[0]} does not lead {people[-1]}.")]
    words = [word("verb", "leads", "lead", "led")] + [word("name", x) for x in people]
    return words, [add("leads", "If X leads Y and Y leads Z then X leads Z.")] + chain + ends


def before(special, count):
    words, sentences = special
    return words + made(count) + sentences


def took(words, file):
    least, output = None, b""
    for _ in range(runs):
        begun = resource.getrusage(resource.RUSAGE_CHILDREN)
        with open(file, "rb") as lines:
            output = subprocess.run([program, *words], stdin=lines, stdout=subprocess.PIPE, check=True).stdout
        ended = resource.getrusage(resource.RUSAGE_CHILDREN)
        seconds = ended.ru_utime + ended.ru_stime - begun.ru_utime - begun.ru_stime
        least = seconds if least is None else min(least, seconds)
    return least, output.count(b"\n")


own = [add("Namea", "Namea is a nouna."), add("Namea", "Namea is not a nouna.")]
old = [word("name", "Sam"), word("noun", "step", "steps")], [add("Sam", "Sam is a step."), add("Sam", "Sam is not a step.")]
cases = [
    ("a pair of the words there", made(1998) + own, 2),
    ("a pair of older words", before(old, 1998), 2),
    ("20 in a chain of classes", before(classes(20), 1980), 20),
    ("20 in a transitive chain", before(leads(20), 1980), 20),
    ("a transitive chain of 201", sum(leads(201), []), 201),
    ("say", made(2000), None),
]
print(f"{'':28} {'lines':>6} {'replay':>8} {'beyond':>8}")
with tempfile.TemporaryDirectory() as folder:
    for name, lines, wanted in cases:
        file = os.path.join(folder, "lines")
        with open(file, "w") as out:
            out.writelines(json.dumps(line) + "\n" for line in lines)
        article = lines[-1].get("article")
        at = sum(line["do"] == "add" and line["article"] == article for line in lines) - 1
        plain, _ = took(["replay"], file)
        whole, count = took(["say"] if wanted is None else ["why", article, str(at)], file)
        assert wanted in (None, count), f"{name}: {count} lines"
        print(f"{name:28} {count:6} {plain:8.2f} {whole - plain:8.2f}", flush=True)
PY
