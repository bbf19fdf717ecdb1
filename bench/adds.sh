#!/usr/bin/env bash
# bench/adds.sh [WORD [COUNT [SEED]]]: how long `acewiki replay` takes for each `add` of wikis whose trees of successors are large, or whose names
# stand in a chain under a transitive verb, on the proved program (PROGRAM names another). It tells milliseconds of processor time,
# as the kernel counts them for the process, of each the least of three runs: the median and the most of all, and that of the
# last; then what all adds took, and the most memory. WORD stands in the names of the rows that are run, if not all are. Then
# Konclude (Debian's package `konclude`), with two threads, checks the axioms of all sentences, the last one included:
# milliseconds as it tells them, without the reading of the file and in all, and what it finds.
# The last rows are of wikis that are drawn by the seeds from SEED (0) on (tests/drawn.py): COUNT (20) of 50 to 300 sentences of all
# kinds, and two thirds as many of 500 to 2,000 sentences that leave no choice. They run once, with the numbers over all their
# adds, and a wiki ends at an add that takes over ten seconds. Konclude is asked of what each wiki asserts, for which its median
# and its most milliseconds are told, and of what is known together with each sentence that is red for the budget, or was given
# up: so many are `late`, and of so many it finds a model (`wrong`), with the first seeds. Where a verb is transitive and
# symmetric it misses some contradictions.
set -eu
root="$(cd "$(dirname "${BASH_SOURCE[0]}")/.." && pwd)"
program="${PROGRAM:-$("$root/bench/program" acewiki)}"
echo "load $(cut -d' ' -f1-3 /proc/loadavg)"
PYTHONPATH="$root/tests" PYTHONDONTWRITEBYTECODE=1 python3 - "$program" "${1:-}" "${2:-20}" "${3:-0}" <<'PY'
import json, re, select, shutil, statistics, subprocess, sys, tempfile
from drawn import every_construct, without_choices
from sharing import WIKIS, levels, letters, noun, wiki, word

program, chosen, count, seed = *sys.argv[1:3], int(sys.argv[3]), int(sys.argv[4])
SECONDS = 10


class Replay:
    """The program, which is asked one thing after the other."""

    def __init__(self):
        self.process = subprocess.Popen([program, "replay"], stdin=subprocess.PIPE, stdout=subprocess.PIPE)

    def milliseconds(self):
        """The processor time so far."""
        with open(f"/proc/{self.process.pid}/schedstat") as file:
            return int(file.read().split()[0]) / 1e6

    def ask(self, request, seconds=None):
        """The reply, none where it takes longer than so many seconds, and what it took."""
        before = self.milliseconds()
        self.process.stdin.write(json.dumps(request).encode() + b"\n")
        self.process.stdin.flush()
        while seconds and not select.select([self.process.stdout], [], [], 0.1)[0]:
            if self.milliseconds() - before > 1000 * seconds:
                return None, self.milliseconds() - before
        reply = json.loads(self.process.stdout.readline())
        return reply, self.milliseconds() - before

    def megabytes(self):
        with open(f"/proc/{self.process.pid}/status") as file:
            return int(re.search(r"VmHWM:\s+(\d+)", file.read())[1]) / 1024

    def end(self):
        self.process.kill()
        self.process.wait()
        self.process.stdin.close()
        self.process.stdout.close()


def leads(count, *more):
    """So many names, each of which leads the next one, and then further sentences."""
    names = [f"Person{letters(number)}" for number in range(count)]
    texts = ["If X leads Y and Y leads Z then X leads Z."] + [f"{one} leads {other}." for one, other in zip(names, names[1:])]
    texts += [text.format(first=names[0], last=names[-1]) for text in more]
    words = [word("verb", "leads", "lead", "led"), *(word("name", name) for name in names)]
    return words, [dict(do="add", article="lead", text=text) for text in texts]


def borders_below(count):
    """What borders a first noun is a second one, and every third one borders a first one; Mary is of the first third noun alone."""
    kinds = [[noun(kind, number) for number in range(count)] for kind in ("first", "second", "third")]
    sentences = []
    for one, two, three in zip(*kinds):
        sentences += [f"Everything that borders a {one} is a {two}.", f"Every {three} borders a {one}."]
    return wiki(sum(kinds, []), sentences + [f"Mary is a {kinds[2][0]}."])


def choices(count):
    """So many names, each of which is one of two, and who is the first of these."""
    names = [f"Person{letters(number)}" for number in range(count)]
    words = [word("noun", "city", "cities"), word("noun", "town", "towns"), *(word("name", name) for name in names)]
    texts = [f"{name} is a city or is a town." for name in names] + ["What is a city?"]
    return words, [dict(do="add", article="city", text=text) for text in texts]


def told(words, sentences):
    """What each add took, the last status or answer, the memory, and the axioms of all sentences."""
    replay, took, axioms = Replay(), [], []
    for request in words:
        assert replay.ask(request)[0] == {"done": "word"}, request
    for request in sentences:
        reply, milliseconds = replay.ask(request)
        assert reply.get("done") == "add", reply
        took.append(milliseconds)
    status, memory, article = reply["status"], replay.megabytes(), sentences[-1]["article"]
    if status == "question":
        read, took[-1] = replay.ask(dict(do="read", article=article))
        status = f"{len(read['sentences'][-1]['answers'])} answers"
    for place in range(len(sentences)):
        axioms += replay.ask(dict(do="axioms", article=article, at=place))[0].get("axioms", [])
    replay.end()
    return took, status, memory, axioms


def konclude(words, axioms):
    """What Konclude tells of axioms in functional syntax: milliseconds without the reading and in all, where it ends, and its answer."""
    if not shutil.which("Konclude"):
        return None, None, "Konclude is missing"
    kinds = dict(noun="Class", name="NamedIndividual", verb="ObjectProperty")
    lines = ["Prefix(:=<http://example.org/#>)", "Prefix(owl:=<http://www.w3.org/2002/07/owl#>)", "Ontology(<http://example.org/>"]
    lines += [f"Declaration({kinds[one['kind']]}(:{one['forms'][one['kind'] == 'verb']}))" for one in words]
    with tempfile.NamedTemporaryFile("w", suffix=".ofn") as file:
        file.write("\n".join(lines + axioms + [")"]) + "\n")
        file.flush()
        try:
            said = subprocess.run(["Konclude", "consistency", "-w", "2", "-v", "-i", file.name], stdout=subprocess.PIPE, stderr=subprocess.STDOUT,
                                  timeout=60).stdout.decode(errors="replace")
        except subprocess.TimeoutExpired:
            return None, None, "no answer in 60 s"
    read, whole = (re.search(pattern, said) for pattern in (r"Ontology parsed in (\d+) ms", r"Total processing time: (\d+) ms"))
    answer = re.search(r"is (in)?consistent", said)
    if not (read and whole and answer):
        return None, None, "no answer: " + said[-200:]
    return int(whole[1]) - int(read[1]), int(whole[1]), answer[0]


def meant(words, request):
    """The axioms of a sentence, which a wiki of its own is asked for."""
    replay = Replay()
    for one in [*words, request]:
        replay.ask(one)
    axioms = replay.ask(dict(do="axioms", article=request["article"], at=0))[0].get("axioms", [])
    replay.end()
    return axioms


def one_drawn(words, sentences):
    """What each add took, the memory, the asserted axioms, and of each sentence that came late what was known with it."""
    replay, took, known, late = Replay(), [], [], []
    for request in words:
        assert replay.ask(request)[0] == {"done": "word"}, request
    for place, request in enumerate(sentences):
        reply, milliseconds = replay.ask(request, SECONDS)
        took.append(milliseconds)
        if reply is None:
            late.append(known + meant(words, request))
            break
        axioms = replay.ask(dict(do="axioms", article=request["article"], at=place))[0].get("axioms", [])
        if reply["status"] == "budget":
            late.append(known + axioms)
        if reply["status"] == "asserted":
            known = known + axioms
    memory = replay.megabytes()
    replay.end()
    return took, memory, known, late


def tell_drawn(name, draws, seeds):
    took, memory, late, wrong, theirs, answers = [], 0, 0, [], [], {}
    for number in seeds:
        words, sentences = draws(number)
        times, megabytes, known, waited = one_drawn(words, sentences)
        took, memory, late = took + times, max(memory, megabytes), late + len(waited)
        milliseconds, _, answer = konclude(words, known)
        theirs, answers[answer] = theirs + ([milliseconds] if milliseconds is not None else []), answers.get(answer, 0) + 1
        wrong += [number for axioms in waited if konclude(words, axioms)[2] == "is consistent"]
    print(f"{name:44} {len(took):5} {statistics.median(took):8.2f} {max(took):8.2f} {'':8} {sum(took):8.0f} {memory:6.0f}  {late:5} {len(wrong):5}", end="   ")
    print(f"{statistics.median(theirs):8.0f} {max(theirs):8}" if theirs else f"{'':17}", end="  ")
    print(", ".join(f"{wikis} {answer}" for answer, wikis in answers.items()), *(["wrong:", *wrong[:10]] if wrong else []), flush=True)


rows = [(name, wiki) for name, (wiki, _) in WIKIS] + [
    ("one verb to each of 1,990 nouns", levels(1990, 1)[0]),
    ("200 borders, Mary below the first", borders_below(200)),
    ("400 names with a choice, and a question", choices(400)),
    ("a transitive chain of 500 names", leads(500)),
    ("the same, and who leads the last", leads(500, "Who leads {last}?")),
    ("the same, its ends denied", leads(500, "{first} does not lead {last}.")),
]
print(f"{'':44} {'adds':>5} {'median':>8} {'most':>8} {'last':>8} {'in all':>8} {'MB':>6}  {'last':13} {'Konclude':>8} {'in all':>8}")
for name, (words, sentences) in rows:
    if chosen not in name:
        continue
    runs = [told(words, sentences) for _ in range(3)]
    took = [min(times) for times in zip(*(run[0] for run in runs))]
    _, status, memory, axioms = runs[0]
    print(f"{name:44} {len(took):5} {statistics.median(took):8.2f} {max(took):8.2f} {took[-1]:8.2f} {sum(took):8.0f} {memory:6.0f}  {status:13}", end=" ")
    milliseconds, whole, answer = konclude(words, axioms)
    print(f"{'' if whole is None else milliseconds:8} {'' if whole is None else whole:8}  {answer}", flush=True)
drawn_rows = [(f"{wikis} drawn wikis {kind}", draws, wikis) for kind, draws, wikis in
              [("of all kinds", every_construct, count), ("without choices", without_choices, count * 2 // 3)]]
print(f"{'':44} {'adds':>5} {'median':>8} {'most':>8} {'':8} {'in all':>8} {'MB':>6}  {'late':>5} {'wrong':>5}   {'Konclude':>8} {'most':>8}")
for name, draws, wikis in drawn_rows:
    if chosen in name and wikis:
        tell_drawn(name, draws, range(seed, seed + wikis))
PY
echo "load $(cut -d' ' -f1-3 /proc/loadavg)"
