"""A recorded conversation with bits flipped by zzuf, a fuzzer of Debian's.

fuzzed.py PROGRAM [long]: the bytes of each connection of tests/data/http.jsonl come with one bit in 100 to 1,000 flipped, six
times, with `long` 600 times, in one piece or in two. Each connection has the answer that docs/HTTP.md tells for its bytes, by the
checker of hostile.py, within two seconds. The program goes on serving, and a start on the lines and the journal that it leaves, of
which none is refused, shows the same words.
"""
import collections, json, os, pathlib, subprocess, sys, time
from hostile import exchanged
from running import Wiki

DATA = pathlib.Path(os.path.realpath(__file__)).parent / "data"
# Which part of the bits is flipped.
RATIOS = ["0.001", "0.003", "0.01"]
MOST_SECONDS = 2


def fuzzed(data, seed, ratio):
    """The bytes, with bits flipped. The same seed flips the same."""
    words = ["zzuf", "--seed", str(seed), "--ratio", ratio]
    return subprocess.run(words, input=data, stdout=subprocess.PIPE, check=True).stdout


def cut(data, seed):
    """The bytes in two pieces, or in one."""
    place = seed * 7919 % (2 * len(data) + 1)
    return [it for it in (data[:place], data[place:]) if it]


def replies(program, lines):
    told = subprocess.run([program, "replay"], input=lines, stdout=subprocess.PIPE, check=True).stdout
    return [json.loads(line) for line in told.splitlines()]


def main(program, *more):
    turns, begun, passed = 600 if more == ("long",) else 6, time.time(), collections.Counter()
    given = (DATA / "http.input").read_bytes()
    rows = [json.loads(line)["send"].encode("latin-1") for line in (DATA / "http.jsonl").read_text().splitlines()]
    wiki = Wiki(program, given)
    for turn in range(turns):
        for number, row in enumerate(rows):
            seed, asked = turn * len(rows) + number, time.time()
            data = fuzzed(row, seed, RATIOS[turn % len(RATIOS)])
            wrong = exchanged(wiki, cut(data, seed), "127.0.0.1", passed)
            if wrong is None and time.time() - asked > MOST_SECONDS:
                wrong = f"it took {time.time() - asked:.1f} s"
            if wrong:
                raise SystemExit(f"fuzzed: row {number + 1} of seed {seed}: {wrong}; the program's status is {wiki.process.poll()}")
            passed["changed"] += data != row
    told = wiki.ask(do="words")
    journal = wiki.kill()
    *steps, words = replies(program, given + journal + b'{"do":"words"}\n')
    refused = [it for it in steps[len(given.splitlines()):] if "refused" in it]
    if refused or words != told:
        raise SystemExit(f"fuzzed: behind the journal the words are {words!r}, and not {told!r}; refused are {refused[:3]!r}")
    print(f"fuzzed: {turns * len(rows)} connections, {passed.pop('changed')} of them changed, in {time.time() - begun:.1f} s, each answered as it "
          f"should be; {len(journal.splitlines())} changes, {passed.pop('came'):,} bytes came, {passed.pop('went'):,} went, "
          + ", ".join(f"{times} times {status or 'nothing'}" for status, times in sorted(passed.items())))


main(os.path.abspath(sys.argv[1]), *sys.argv[2:])
