"""Statuses: full disks, closed pipes, input that can't be read, addresses that can't be listened at, and words that are no command.

faults.py PROGRAM: each status comes with its line on standard error, what was written is a front of what it would be, and no
byte of a response is sent before its change stands in the journal.
"""
import json, os, socket, subprocess, sys, tempfile
from running import Wiki, api, read_all

WORDS = {0: "", 2: "usage: acewiki replay|serve|make|help\n", 3: "read fault\n", 4: "write fault\n", 5: "link fault\n"}
LINES = b"".join(json.dumps(dict(do="word", kind="name", forms=["Nam" + chr(97 + n)])).encode() + b"\n" for n in range(20))
HELP = b"acewiki replay [--budget N]\nacewiki serve ADDRESS [--budget N] [--events N]\nacewiki make COUNT SEED [--budget N]\nacewiki help\n" \
    b"acewiki say [--budget N]\nacewiki export [--budget N]\nacewiki check [--budget N]\nacewiki import\nacewiki why ARTICLE AT [--budget N] [--name NAME]\n"
MADE = b"words 50\nsentences 5\nasserted 4\nred 0\noutside 0\nquestions 1\nanswers 0\nunknown 0\n"


def ran(program, words, status, given=LINES, output=subprocess.PIPE, **more):
    """Runs the program, and returns what it wrote. The script ends where its status or its words on errors are others."""
    with tempfile.TemporaryFile() as lines:
        lines.write(given)
        lines.seek(0)
        more.setdefault("stdin", lines)
        done = subprocess.run([program, *words], stdout=output, stderr=more.pop("errors", subprocess.PIPE), timeout=60, **more)
    told = WORDS[status] if done.stderr is None else done.stderr.decode()
    if done.returncode != status or told != WORDS[status]:
        raise SystemExit(f"faults: {words}: expected status {status} and {WORDS[status]!r}, came {done.returncode} and {done.stderr!r}")
    return done.stdout


def expect(what, got, wanted):
    if got != wanted:
        raise SystemExit(f"faults: {what}: expected {wanted!r}, came {got!r}")


def closed_pipe():
    """The end for writing of a pipe that nobody reads."""
    reads, writes = os.pipe()
    os.close(reads)
    return writes


def no_command(program):
    for words in [[], ["fly"], ["replay", "x"], ["Replay"], ["help", "x"], ["serve"], ["serve", "-x"], ["replay", "--events", "1"],
                  ["replay", "--budget"], ["replay", "--budget", "1000000001"], ["serve", "x", "--events", "0"], ["--help"], ["--version"],
                  ["serve", "x", "--budget", "1", "--budget", "1"], ["replay", "--budget", "0" * 20], [b"\xff"], ["serve", b"a\xff"], ["make"], ["make", "1"],
                  ["make", "0", "1"], ["make", "2001", "1"], ["make", "1", "x"], ["make", "1", "1" * 20], ["make", "1", "1", "--events", "1"]]:
        expect(f"output of {words}", ran(program, words, 2), b"")


def full(program):
    """Output on a full device, and into a pipe that nobody reads."""
    for words in (["replay"], ["help"], ["make", "5", "7"]):
        with open("/dev/full", "wb") as device:
            ran(program, words, 4, output=device)
        pipe = closed_pipe()
        ran(program, words, 4, output=pipe)
        os.close(pipe)
    with open("/dev/full", "wb") as device:
        # the line on standard error can't be written either, which changes no status
        ran(program, ["replay"], 4, output=device, errors=device)
        ran(program, ["fly"], 2, errors=device)
        ran(program, ["replay"], 0, given=b"", output=device)


def full_journal(program):
    """A change that the journal doesn't take is answered by no byte, and the program ends with 4. What isn't a change is answered."""
    for output in (open("/dev/full", "wb"), closed_pipe()):
        wiki = Wiki(program, LINES, output)
        expect("a request that changes nothing", wiki.ask(do="find", word="Nama").get("done"), "find")
        with wiki.connect() as link:
            link.sendall(api(dict(do="word", kind="name", forms=["Bern"])))
            try:
                got = read_all(link)
            except ConnectionResetError:
                got = b""
        status, told = wiki.ended("faults: a change without a journal"), wiki.process.stderr.read().decode()
        expect("a change without a journal", (got, status, told), (b"", 4, WORDS[4]))


def unreadable(program):
    """Input that can't be read: the replies to the whole lines that were read before stand."""
    folder = os.open("/", os.O_RDONLY)
    for words in (["replay"], ["serve", "127.0.0.1:1"]):
        expect(f"output of {words} on input that can't be read", ran(program, words, 3, stdin=folder), b"")
    os.close(folder)


def too_long(program):
    """A line that is too long is answered by `BadRequest`, however much longer it is, and the next one as ever."""
    for length in (65_536, 70_000, 1_000_000):
        got = ran(program, ["replay"], 0, given=b"x" * length + b"\n" + LINES)
        expect(f"replies to a line of {length} bytes and 20 words", got, b'{"name":"BadRequest","refused":0}\n' + b'{"done":"word"}\n' * 20)


def deaf(program):
    """Addresses that can't be listened at."""
    with socket.socket() as taken:
        taken.bind(("127.0.0.1", 0))
        taken.listen()
        for address in (f"127.0.0.1:{taken.getsockname()[1]}", "nowhere", "127.0.0.1:99999", "", "127.0.0.1"):
            expect(f"output at the address {address!r}", ran(program, ["serve", address], 5), b"")


def done(program):
    expect("help", ran(program, ["help"], 0), HELP)
    expect("help without input", ran(program, ["help"], 0, given=b"", stdin=os.open("/", os.O_RDONLY)), HELP)
    expect("make 5 7", ran(program, ["make", "5", "7"], 0), MADE)
    expect("make 05 7 --budget 1000", ran(program, ["make", "05", "7", "--budget", "1000"], 0), MADE)
    expect("replies to 20 words", ran(program, ["replay"], 0), b'{"done":"word"}\n' * 20)
    wiki = Wiki(program, LINES, options=["--events", "5"])
    # the first connection opened and ended; the next one opens, brings its request, and is closed; the last one only opens
    expect("the index before the last event", wiki.page("/")[0], 200)
    with wiki.connect():
        expect("the status after five events", (wiki.ended("faults: after five events"), wiki.process.stderr.read()), (0, b""))


def main():
    program = os.path.abspath(sys.argv[1])
    for test in (no_command, full, full_journal, unreadable, too_long, deaf, done):
        test(program)
    print("faults: each status as it should be")


main()
