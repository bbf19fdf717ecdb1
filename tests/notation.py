"""notation.py PROGRAM FILE: what the request `grammar` replies to texts of docs/GRAMMAR_NOTATION.md, worked out by hand.

A line of FILE has what is wanted and behind a tab the text as JSON has it: a fault with its number; `Bare`, of a grammar whose rules
have no labels; `done`, of one that is taken; or `read`, of a sentence of the notation, whatever else stands against it. Beside these
stand grammars with as many rules, features and values as one may have, and with one more.
"""
import json, subprocess, sys


def many(count, front, back=""):
    """So many parts, each with its number between a front and a back."""
    return "".join(f"{front}{number}{back}" for number in range(count))


LARGE = [
    ("Bare", "text --> [a]." + many(499, "b", " --> [a].")),
    ("TooLarge 501", "text --> [a]." + many(500, "b", " --> [a].") + " b --> ."),
    ("Bare", many(1_000, "feature f", ": p.") + "text --> [a]."),
    ("Syntax 15921", many(1_001, "feature f", ": p.") + "text --> [a] []."),
    ("TooLarge 0", many(1_001, "feature f", ": p.") + "text --> ."),
    ("Bare", "feature k:a" + many(9_999, ",a") + ". text --> [a]."),
    ("TooLarge 0", "feature k:a" + many(10_000, ",a") + ". text --> ."),
]


def texts(name):
    """What is wanted, and the text, of each line."""
    with open(name, encoding="utf-8") as it:
        rows = [line.split("\t", 1) for line in it.read().split("\n") if line and not line.startswith("#")]
    return [(wanted, json.loads(text)) for wanted, text in rows]


def told(reply):
    if reply == {"done": "grammar"}:
        return "done"
    if reply.get("refused") == 16:
        return f"{reply['fault']} {reply['at']}"
    return reply.get("name")


def fits(wanted, came):
    if wanted == "read":
        return came is not None and came != "BadRequest" and not came.startswith("Syntax ")
    return wanted == came


def main(program, name):
    rows = texts(name) + LARGE
    if len(rows) == len(LARGE):
        sys.exit(f"notation: {name} has no text")
    for wanted, text in rows:
        # Each in a wiki of its own, since a grammar that is taken stands against no other one.
        given = json.dumps({"do": "grammar", "text": text}).encode() + b"\n"
        done = subprocess.run([program, "replay"], input=given, stdout=subprocess.PIPE, stderr=subprocess.PIPE, timeout=60)
        if done.returncode != 0 or done.stdout.count(b"\n") != 1:
            sys.exit(f"notation: {text[:200]!r}: status {done.returncode} and {done.stdout!r}")
        came = told(json.loads(done.stdout))
        if not fits(wanted, came):
            sys.exit(f"notation: {text[:200]!r}: expected {wanted}, came {came}")
    print(f"notation: {len(rows)} texts have their replies")


main(*sys.argv[1:])
