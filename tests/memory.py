"""Memory that is refused: the number N allocation of a run fails, for the first 500 numbers and 500 more over the rest.

memory.py PROGRAM: a run of `replay` ends with status 9 and a front of its output, or with status 0 and all of it. A program
that serves answers a change whole, or in part, or not at all, and has ended with status 9; or the link had no memory to keep the
response of a change in the journal, which is a `send` that failed, and it goes on serving. A change that was answered stands in the
journal, whose lines are whole. The allocator that refuses stands before that of the C library; what is
allocated in other places, as by a reader of the operating system's, is refused as well.
"""
import os, sys, tempfile
from refusing import COUNTRIES, Refusing, lines, word
from running import Closed, Wiki, api, moments, parse_response, read_all

TYPED = [dict(do="type", session=n, text=token) for n in (1, 2) for token in ("Bern", "is", "a", "city", ".")]
SESSIONS = lines(
    word("noun", "city"), word("noun", "country"), word("name", "Bern"), dict(do="open", article="Bern"), dict(do="open", article="Bern"), *TYPED,
    dict(do="commit", session=1), dict(do="commit", session=2), dict(do="refresh", session=2), dict(do="commit", session=2),
    dict(do="commit", session=2), dict(do="type", session=9, text="Bern"), dict(do="type", session=1, text="fish"))


def numbers(count):
    """The first 500, and 500 more over the rest."""
    rest = range(501, count + 1, max(1, (count - 500) // 500))
    return [*range(1, min(count, 500) + 1), *rest]


def replays(refusing, given, name):
    status, whole, _ = refusing.replay(given)
    count = refusing.counts()[0]
    if status or not count:
        raise SystemExit(f"memory: {name} ended with {status} after {count} allocations")
    refused = 0
    for number in numbers(count):
        status, output, told = refusing.replay(given, MALLOC=number)
        right = (status, output, told) == (0, whole, b"") or (status == 9 and whole.startswith(output) and told == b"out of memory\n")
        if not right:
            raise SystemExit(f"memory: {name}, allocation {number} refused: expected status 9, 'out of memory' and a front of {whole[-200:]!r}, or 0 and all of it; "
                             f"came {status}, {told!r} and {output[-200:]!r}")
        refused += status == 9
    return f"{name}: {refused} of {len(numbers(count))} runs ended with 9"


def goes_on(wiki):
    """The status with which the program has ended, or None where it goes on serving. The allocation may be one for this page."""
    try:
        if wiki.process.poll() is None and wiki.page("/")[0] == 200:
            return None
    except (OSError, Closed):
        pass
    return wiki.ended("memory: an allocation refused")


def asked_once(refusing, options, **refused):
    """A program that serves, and what it answered to one change."""
    wiki = Wiki(refusing.program, lines(word("noun", "city")), options=options, environment=refusing.environment(**refused), waits=False)
    for _ in moments():
        try:
            with wiki.connect() as link:
                link.sendall(api(word("name", "Bern")))
                return wiki, read_all(link)
        except OSError:
            if wiki.process.poll() is not None:
                break
    return wiki, b""


def serves(refusing):
    """One change over a connection, with allocations refused over the whole run and each of the last 250."""
    wiki, _ = asked_once(refusing, ["--events", "2"])
    wiki.ended("memory: after two events")
    count = refusing.counts()[0]
    tried = sorted({*range(1, count + 1, max(1, count // 250)), *range(max(1, count - 250), count + 1)})
    ended = answered = cut = 0
    for number in tried:
        wiki, got = asked_once(refusing, [], MALLOC=number)
        journal = wiki.written()
        status = goes_on(wiki)
        wiki.stop()
        try:
            whole = got and parse_response(got)[0] == 200
        except Closed:
            whole = False
        if status not in (None, 9) or journal not in (b"", b'{"do":"word","forms":["Bern"],"kind":"name"}\n') or (got and not journal):
            raise SystemExit(f"memory: allocation {number} refused: expected status 9 or serving on, and a response only with the change in the journal; "
                             f"came status {status}, {got!r}, journal {journal!r}")
        if status is None and (whole or not journal):
            raise SystemExit(f"memory: allocation {number} refused, and it goes on serving: expected a response that is cut and the change in the journal; "
                             f"came {got!r}, journal {journal!r}")
        ended, answered, cut = ended + (status == 9), answered + bool(whole), cut + (status is None)
    return f"serve: {ended} of {len(tried)} runs ended with 9, {answered} of them after a whole response; {cut} cut the response alone"


def main():
    with tempfile.TemporaryDirectory() as folder:
        refusing = Refusing(os.path.abspath(sys.argv[1]), folder)
        print("memory:", replays(refusing, COUNTRIES, "countries"))
        print("memory:", replays(refusing, SESSIONS, "sessions"))
        print("memory:", serves(refusing))


main()
