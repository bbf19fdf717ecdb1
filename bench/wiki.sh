#!/usr/bin/env bash
# How fast `acewiki replay` adds sentences and answers questions, on the proved program: 50 words and 2,000 drawn sentences
# (names in relations and classes, chains of classes, universal restrictions, and questions), one request after the other
# through a pipe, then each article is read twice, and a word that stands in some 100 sentences gets its forms anew. At the
# end 64 sessions have 40 tokens each, and the wiki gets the text of its grammar, the same with a word more, and one with a fault.
# BEFORE names another program, of which the adds are told too: the one of commit 49d744f4 in release/ is the last that keeps nothing
# of what stood before a change (git show 49d744f4:release/acewiki-x86_64-linux).
set -eu
root="$(cd "$(dirname "${BASH_SOURCE[0]}")/.." && pwd)"
program="${PROGRAM:-$("$root/bench/program" acewiki)}"
python3 - "$program" "${1:-2000}" "${2:-7}" "$root" <<'PY'
import json, os, statistics, subprocess, sys, time

program, count, seed, root = sys.argv[1], int(sys.argv[2]), int(sys.argv[3]), sys.argv[4]
letters = "abcdefghijklmnopqrst"
nouns, names, verbs = ["noun" + x for x in letters], ["Name" + x for x in letters], ["verb" + x for x in letters[:10]]
state = seed % 65537


def draw():
    global state
    state = (state * 75 + 74) % 65537
    return state


def sentence(n):
    a, b, c = draw(), draw(), draw()
    if n % 5 == 0:
        return names[a % 20], f"{names[a % 20]} {verbs[b % 10]}s {names[c % 20]}."
    if n % 5 == 1:
        i = a % 19
        return nouns[i], f"Every {nouns[i]} is a {nouns[i + 1 + b % (19 - i)]}."
    if n % 5 == 2:
        return names[a % 20], f"{names[a % 20]} is a {nouns[b % 20]}."
    if n % 5 == 3:
        return nouns[a % 20], f"Every {nouns[a % 20]} {verbs[b % 10]}s only {nouns[c % 20]}s."
    return nouns[a % 20], f"Which {nouns[a % 20]}s {verbs[b % 10]} {names[c % 20]}?"


def started(path):
    return subprocess.Popen([path, "replay"], stdin=subprocess.PIPE, stdout=subprocess.PIPE)


def ask(**request):
    begun = time.perf_counter()
    wiki.stdin.write(json.dumps(request).encode() + b"\n")
    wiki.stdin.flush()
    reply = json.loads(wiki.stdout.readline())
    return reply, (time.perf_counter() - begun) * 1000


def filled():
    """Adds the words and the sentences: what each add took, and how many have which status."""
    global state
    state = seed % 65537
    for kind, words in [("noun", [[x, x + "s"] for x in nouns]), ("name", [[x] for x in names]), ("verb", [[x + "s", x, x + "ed"] for x in verbs])]:
        for forms in words:
            assert ask(do="word", kind=kind, forms=forms)[0] == {"done": "word"}
    adds, statuses = [], {}
    for n in range(count):
        article, text = sentence(n)
        reply, took = ask(do="add", article=article, text=text)
        adds.append(took)
        statuses[reply.get("status")] = statuses.get(reply.get("status"), 0) + 1
    return adds, statuses


def tell(name, adds):
    last = statistics.median(adds[-100:])
    print(f"{name:32} {sum(adds):10.0f} {statistics.median(adds):10.3f} {last:10.3f} {max(adds):10.2f}")


before = []
if "BEFORE" in os.environ:
    wiki = started(os.environ["BEFORE"])
    before, _ = filled()
    wiki.stdin.close()
    wiki.wait()
wiki = started(program)
whole = time.perf_counter()
adds, statuses = filled()
reads, answers, unknown = [], 0, 0
for word in nouns + names + verbs:
    reply, took = ask(do="read", article=word)
    reads.append(took)
    answers += sum(len(s.get("answers", [])) for s in reply["sentences"])
    unknown += sum(len(s.get("unknown", [])) for s in reply["sentences"])
whole = time.perf_counter() - whole
again = [ask(do="read", article=word)[1] for word in nouns + names + verbs]
finds = [ask(do="find", word=noun + "s")[1] for noun in nouns * 10]
words = [ask(do="word", kind="name", forms=[f"New{x}{y}"])[1] for x in letters for y in letters[:10]]
reply, reword = ask(do="reword", word="noune", forms=["noune", "nounes"])
line = json.loads(subprocess.run([root + "/tools/grammar", root + "/grammars/english.codeco"], capture_output=True, check=True).stdout)
for n in range(64):
    session = ask(do="open", article="nouna")[0]["session"]
    for token in "Every nouna verbas".split() + "a nouna that verbas".split() * 9:
        assert "tokens" in ask(do="type", session=session, text=token)[0]
    ask(do="type", session=session, text="NameA")
grammars = [ask(do="grammar", text=line["text"] + more) for more in ["", " {mark} rp --> [which].", " text --> ."]]
print(f"{'sentences':32} {count:10} {statuses}, {answers} answers, {unknown} unknown")
print(f"{'all requests, s':32} {whole:10.2f}")
print(f"{'adds, ms':32} {'all':>10} {'median':>10} {'last 100':>10} {'worst':>10}")
tell("with what stood before", adds)
if before:
    tell("of BEFORE", before)
print(f"{'a read, median and worst, ms':32} {statistics.median(reads):10.2f} {max(reads):10.2f}")
print(f"{'a read again, median and worst, ms':32} {statistics.median(again):8.2f} {max(again):10.2f}")
print(f"{'a find, median and worst, ms':32} {statistics.median(finds):10.2f} {max(finds):10.2f}")
print(f"{'a word, median and worst, ms':32} {statistics.median(words):10.2f} {max(words):10.2f}")
print(f"{'a reword, ms':32} {reword:10.2f} {reply}")
for name, (reply, took) in zip(["the same grammar, ms", "a grammar more, ms", "a grammar with a fault, ms"], grammars):
    print(f"{name:32} {took:10.2f} {reply}")
PY
