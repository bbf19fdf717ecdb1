"""Calls of the operating system that fail, or that do less than was asked.

calls.py PROGRAM: each read of the input, each write of the output, each wait for connections and the listening fail in turn, where
no read gives and no write takes more than 50 bytes. The statuses are 3, 4, 5 and 5; what was written is a front of what it would
be, after a failed read the replies to whole lines; and no response is sent whose change isn't in the journal. The status is the
same where standard error can't be written either.
"""
import os, sys, tempfile
from refusing import COUNTRIES, Refusing, lines, word
from running import Wiki, api, moments, read_all

PIECE = 50


def reads_and_writes(refusing):
    status, whole, _ = refusing.replay(COUNTRIES, PIECE=PIECE)
    _, reads, writes, _, _ = refusing.counts()
    if status or reads < 10 or writes < 10:
        raise SystemExit(f"calls: status {status}, {reads} reads, {writes} writes")
    for number in range(1, reads + 1):
        status, output, told = refusing.replay(COUNTRIES, PIECE=PIECE, READ=number)
        given = COUNTRIES[:PIECE * (number - 1)]
        front = b"".join(whole.splitlines(True)[:given.count(b"\n")])
        if (status, output, told) != (3, front, b"read fault\n"):
            raise SystemExit(f"calls: read {number} failed: expected status 3, 'read fault' and {front!r}; came {status}, {told!r} and {output!r}")
        untold(refusing, (3, front), READ=number)
    for number in range(1, writes + 1):
        status, output, told = refusing.replay(COUNTRIES, PIECE=PIECE, WRITE=number)
        if status != 4 or output != whole[:len(output)] or output == whole or told != b"write fault\n":
            raise SystemExit(f"calls: write {number} failed: expected status 4, 'write fault' and a front of {whole!r}; came {status}, {told!r} and {output!r}")
        untold(refusing, (4, output), WRITE=number)
    return f"{reads} reads and {writes} writes"


def untold(refusing, wanted, **refused):
    """The same call fails beside a standard error that can't be written."""
    with open("/dev/full", "wb") as device:
        ended = refusing.replay(COUNTRIES, errors=device, PIECE=PIECE, **refused)[:2]
    if ended != wanted:
        raise SystemExit(f"calls: {refused} failed, and standard error too: {ended} and not {wanted}")


def waits(refusing):
    """The wait for connections fails: what was sent is a front of the response, and a response has its journal's line."""
    given, asked = lines(word("noun", "city")), api(word("name", "Bern"))
    wiki = Wiki(refusing.program, given)
    whole = wiki.send(asked)[2]
    wiki.stop()
    for number in range(1, 12):
        wiki = Wiki(refusing.program, given, environment=refusing.environment(WAIT=number), waits=False)
        got = b""
        for _ in moments():
            try:
                with wiki.connect() as link:
                    link.sendall(asked)
                    got = read_all(link)
                if got:
                    break
            except OSError:
                if wiki.process.poll() is not None:
                    break
        # further connections wake it until the wait that fails
        for _ in moments():
            if wiki.process.poll() is not None:
                break
            try:
                wiki.page("/")
            except Exception:
                pass
        status, told, journal = wiki.ended(f"calls: wait {number} failed"), wiki.process.stderr.read(), wiki.written()
        if status != 5 or told != b"link fault\n" or (got and not got.endswith(whole)) or (got and not journal):
            raise SystemExit(f"calls: wait {number} failed: expected status 5, 'link fault', no response or an end of {whole!r}, and that one with its line "
                             f"in the journal; came {status}, {told!r}, {got!r} and the journal {journal!r}")
    wiki = Wiki(refusing.program, given, environment=refusing.environment(LISTEN=1), waits=False)
    status, told = wiki.ended("calls: listening failed"), wiki.process.stderr.read()
    if status != 5 or told != b"link fault\n":
        raise SystemExit(f"calls: listening failed: status {status} with {told!r}, and not 5")
    with open("/dev/full", "wb") as device:
        for refused in (dict(LISTEN=1), dict(WAIT=1)):
            wiki = Wiki(refusing.program, given, environment=refusing.environment(**refused), waits=False, errors=device)
            status = wiki.ended(f"calls: {refused} failed, and standard error too")
            if status != 5:
                raise SystemExit(f"calls: {refused} failed, and standard error too: status {status}, and not 5")
    return "11 waits, and the listening"


def main():
    with tempfile.TemporaryDirectory() as folder:
        refusing = Refusing(os.path.abspath(sys.argv[1]), folder)
        print("calls:", reads_and_writes(refusing), "failed in turn")
        print("calls:", waits(refusing), "failed in turn")


main()
