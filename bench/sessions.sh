#!/usr/bin/env bash
# How fast `acewiki replay` carries sessions over changes of words, on the proved program: 4,998 words, and 64 sessions of 40 tokens
# each, of nested relative clauses. A word is added; the word of the last token loses the form that all sessions have; then the
# word of the second token does. Then one more session is typed token by token, with the menu after each.
set -eu
root="$(cd "$(dirname "${BASH_SOURCE[0]}")/.." && pwd)"
program="${PROGRAM:-$("$root/bench/program" acewiki)}"
python3 - "$program" <<'PY'
import json, statistics, subprocess, sys, time

wiki = subprocess.Popen([sys.argv[1], "replay"], stdin=subprocess.PIPE, stdout=subprocess.PIPE)


def ask(**request):
    begun = time.perf_counter()
    wiki.stdin.write(json.dumps(request).encode() + b"\n")
    wiki.stdin.flush()
    reply = wiki.stdout.readline()
    return json.loads(reply), (time.perf_counter() - begun) * 1000


def done(**request):
    reply, took = ask(**request)
    assert "done" in reply, (request, reply)
    return reply, took


def stem(number):
    return "w" + "".join(chr(97 + number // 26**place % 26) for place in range(4))


done(do="word", kind="name", forms=["Mary"])
done(do="word", kind="verb", forms=["sees", "see", "seen"])
done(do="word", kind="verb", forms=["likes", "like", "liked"])
for number in range(4_995):
    kind = ["noun", "verb", "adjective", "name"][number % 4]
    done(do="word", kind=kind, forms=[stem(number)])
tokens = ["Mary", "sees", "something"] + ["that", "sees", "something"] * 11 + ["that", "likes", "something", "that"]
assert len(tokens) == 40
types = []
for _ in range(64):
    session = done(do="open", article="Mary")[0]["session"]
    for token in tokens:
        types.append(done(do="type", session=session, text=token)[1])


print(f"{'a type, median and worst, ms':44} {statistics.median(types):8.2f} {max(types):8.2f}")
print(f"{'a word, ms':44} {done(do='word', kind='noun', forms=['zebra'])[1]:8.2f}")
print(f"{'a reword of the 38th token, 64 sessions, ms':44} {done(do='reword', word='like', forms=['loves', 'love', 'loved'])[1]:8.2f}")
print(f"{'tokens left of the first session':44} {done(do='back', session=1)[0]['tokens'] + 1:8}")
print(f"{'a reword of the second token, 64 sessions, ms':44} {done(do='reword', word='see', forms=['looks', 'look', 'looked'])[1]:8.2f}")
print(f"{'tokens left of the first session':44} {done(do='back', session=1)[0]['tokens'] + 1:8}")
with open(f"/proc/{wiki.pid}/status") as status:
    peak = next(line.split()[1] for line in status if line.startswith("VmHWM"))
print(f"{'peak of memory, KB':44} {peak:>8}")
done(do="drop", session=64)
session = done(do="open", article="Mary")[0]["session"]
both = []
for token in [t.replace("sees", "looks").replace("likes", "loves") for t in tokens]:
    took = done(do="type", session=session, text=token)[1]
    both.append(took + done(do="menu", session=session)[1])
print(f"{'a type and its menu, 10th and 40th token, ms':44} {both[9]:8.2f} {both[39]:8.2f}")
PY
