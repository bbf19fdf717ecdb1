"""sayings.py PROGRAM FILE: how `acewiki say` says again what sentences state, worked out by hand from the patterns of docs/MEANING.md.

A line of FILE has a sentence, and behind tabs the lines that are said of it: sentences, or `- ` and an axiom that has no pattern. Each
stands in a wiki of its own beside the words below, of which `sheep` and `put` have forms that coincide, and `owl`, `uncle` and
`afraid-of` begin with a vowel.
"""
import json, subprocess, sys

WORDS = [
    ("name", ["Mary"]), ("name", ["Bill"]), ("name", ["Ann"]), ("noun", ["man", "men"]), ("noun", ["dog"]), ("noun", ["owl"]), ("noun", ["sheep", "sheep"]),
    ("noun", ["cat"]), ("verb", ["sees", "see", "seen"]), ("verb", ["owns", "own", "owned"]), ("verb", ["put", "put", "put"]), ("of", ["part"]),
    ("of", ["uncle"]), ("adjective", ["near"]), ("adjective", ["afraid-of"]),
]


def said(program, text):
    lines = [dict(do="word", kind=kind, forms=forms) for kind, forms in WORDS] + [dict(do="add", article="Mary", text=text)]
    given = "".join(json.dumps(line) + "\n" for line in lines).encode()
    done = subprocess.run([program, "say"], input=given, stdout=subprocess.PIPE, stderr=subprocess.PIPE, timeout=60)
    if done.returncode != 0:
        sys.exit(f"sayings: {text}: status {done.returncode}")
    return done.stdout.decode().splitlines()


def main(program, name):
    with open(name, encoding="utf-8") as it:
        rows = [line.split("\t") for line in it.read().split("\n") if line and not line.startswith("#")]
    if not rows:
        sys.exit(f"sayings: {name} has no sentence")
    for text, *wanted in rows:
        came = said(program, text)
        if came != wanted:
            sys.exit(f"sayings: {text}\nexpected {wanted}\ncame {came}")
    print(f"sayings: {len(rows)} sentences are said again")


main(*sys.argv[1:])
