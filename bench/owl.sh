#!/usr/bin/env bash
# bench/owl.sh [RUNS]: how long files of ontologies take, on the proved program (PROGRAM names another): seconds of processor time,
# each the least of RUNS runs, three where it isn't given. A file of 16 MB is refused at its last byte, which takes its whole
# reading and nothing else, and imported when it is whole, as 5,000 words and 2,000 sentences; `acewiki export` of the 2,000
# sentences of `make 2000 7` is timed beyond `acewiki replay` of the same lines; and what it writes is imported and checked, beside
# Konclude where the machine has it (Debian: konclude), loading included.
set -eu
root="$(cd "$(dirname "${BASH_SOURCE[0]}")/.." && pwd)"
program="${PROGRAM:-$("$root/bench/program" acewiki)}"
python3 - "$program" "${1:-3}" <<'PY'
import json, os, resource, shutil, subprocess, sys, tempfile

program, runs = sys.argv[1], int(sys.argv[2])
letters = "abcdefghijklmnopqrst"
nouns, names, verbs = ["noun" + x for x in letters], ["Name" + x for x in letters], ["verb" + x for x in letters[:10]]
MOST_BYTES = 16777216


def drawn(state):
    while True:
        state = (75 * state + 74) % 65537
        yield state


def lines_made(count):
    lines = [{"do": "word", "kind": "noun", "forms": [x, x + "s"]} for x in nouns] + [{"do": "word", "kind": "name", "forms": [x]} for x in names]
    lines += [{"do": "word", "kind": "verb", "forms": [x + "s", x, x + "ed"]} for x in verbs]
    draws = drawn(7)
    for n in range(count):
        a, b, c = next(draws), next(draws), next(draws)
        i = a % 19
        article, text = [
            lambda: (names[a % 20], f"{names[a % 20]} {verbs[b % 10]}s {names[c % 20]}."),
            lambda: (nouns[i], f"Every {nouns[i]} is a {nouns[i + 1 + b % (19 - i)]}."),
            lambda: (names[a % 20], f"{names[a % 20]} is a {nouns[b % 20]}."),
            lambda: (nouns[a % 20], f"Every {nouns[a % 20]} {verbs[b % 10]}s only {nouns[c % 20]}s."),
            lambda: (nouns[a % 20], f"Which {nouns[a % 20]}s {verbs[b % 10]} {names[c % 20]}?"),
        ][n % 5]()
        lines.append({"do": "add", "article": article, "text": text})
    return "".join(json.dumps(line) + "\n" for line in lines).encode()


def large():
    """A file of as many bytes as there may be: classes one below the other, and their members."""
    parts, size, n = [b"Prefix(:=<http://example.org/large#>)\nOntology(<http://example.org/large>\n"], 80, 0
    while size < MOST_BYTES - 200:
        made = f"SubClassOf(:LargeClassWithNumber{n} :LargeClassWithNumber{n + 1})\nClassAssertion(:LargeClassWithNumber{n} :Individual{n % 1000})\n"
        parts.append(made.encode())
        size += len(made)
        n += 1
    return b"".join(parts), 2 * n


def took(words, given):
    least, output = None, b""
    for _ in range(runs):
        with tempfile.TemporaryFile() as file:
            file.write(given)
            file.seek(0)
            begun = resource.getrusage(resource.RUSAGE_CHILDREN)
            output = subprocess.run(words, stdin=file, stdout=subprocess.PIPE, stderr=subprocess.DEVNULL).stdout
            ended = resource.getrusage(resource.RUSAGE_CHILDREN)
        seconds = ended.ru_utime + ended.ru_stime - begun.ru_utime - begun.ru_stime
        least = seconds if least is None else min(least, seconds)
    return least, output


def row(what, seconds, told):
    print(f"{what:44} {seconds:8.2f}  {told}", flush=True)


file, axioms = large()
seconds, told = took([program, "check"], file)
row(f"{len(file)} bytes, {axioms} axioms, cut at the end", seconds, told.decode().strip())
seconds, told = took([program, "import"], file + b")")
row("import of these, ended", seconds, f"{told.count(bytes([10]))} lines")
lines = lines_made(2000)
plain, _ = took([program, "replay"], lines)
whole, exported = took([program, "export"], lines)
row("export of 2,000 sentences, beyond replay", whole - plain, f"{exported.count(bytes([10]))} lines")
seconds, told = took([program, "check"], exported)
row("check of these", seconds, told.decode().strip())
seconds, told = took([program, "import"], exported)
row("import of these", seconds, f"{told.count(bytes([10]))} lines")
konclude = shutil.which("Konclude") or shutil.which("konclude")
if konclude:
    with tempfile.TemporaryDirectory() as folder:
        name = os.path.join(folder, "exported.ofn")
        with open(name, "wb") as out:
            out.write(exported)
        seconds, told = took([konclude, "consistency", "-i", name], b"")
        verdict = "inconsistent" if b"inconsistent" in told.lower() else "consistent" if b"consistent" in told.lower() else "?"
        row("Konclude on these", seconds, verdict)
PY
