"""meanings.py PROGRAM FILE: what the request `axioms` tells of sentences, worked out by hand from the tables of docs/MEANING.md.

A line of FILE has a sentence and behind a tab its axioms with a semicolon behind each, the class of a question, or the cause why it
has no axioms. Each stands in a wiki of its own beside the words below.
"""
import json, subprocess, sys

WORDS = [
    ("name", ["Mary"]), ("name", ["Bill"]), ("name", ["Germany"]), ("noun", ["man", "men"]), ("noun", ["dog"]), ("noun", ["cat"]), ("noun", ["country"]),
    ("verb", ["sees", "see", "seen"]), ("verb", ["owns", "own", "owned"]), ("verb", ["border"]), ("of", ["part"]), ("adjective", ["near"]), ("name", ["Sue"]),
]


def told(reply):
    """What a reply to `axioms` says, in the words of FILE."""
    if reply.get("done") != "axioms":
        return json.dumps(reply)
    return reply.get("cause") or reply.get("class") or "".join(axiom + ";" for axiom in reply["axioms"])


def asked(program, text):
    lines = [dict(do="word", kind=kind, forms=forms) for kind, forms in WORDS]
    lines += [dict(do="add", article="Mary", text=text), dict(do="axioms", article="Mary", at=0)]
    given = "".join(json.dumps(line) + "\n" for line in lines).encode()
    done = subprocess.run([program, "replay"], input=given, stdout=subprocess.PIPE, stderr=subprocess.PIPE, timeout=60)
    replies = [json.loads(line) for line in done.stdout.splitlines()]
    if done.returncode != 0 or len(replies) != len(lines) or any("done" not in reply for reply in replies):
        sys.exit(f"meanings: {text}: status {done.returncode} and {replies}")
    return told(replies[-1])


def main(program, name):
    with open(name, encoding="utf-8") as it:
        rows = [line.split("\t", 1) for line in it.read().split("\n") if line and not line.startswith("#")]
    if not rows:
        sys.exit(f"meanings: {name} has no sentence")
    for text, wanted in rows:
        came = asked(program, text)
        if came != wanted:
            sys.exit(f"meanings: {text}\nexpected {wanted}\ncame {came}")
    print(f"meanings: {len(rows)} sentences have theirs")


main(*sys.argv[1:])
