"""What a wiki keeps when its program is killed.

kill.py PROGRAM [long]: three clients post changes; the program is killed at a random moment. Each change that a client got a
response to stands in the journal, in each client's order, and at most one more of each client. The program starts anew on the
former input and the journal, each ended by a newline; every page shows what `replay` of those lines and a `read` of each
article tell; sessions are gone. Then a journal is cut at bytes of its last line: a line that is cut before its closing brace
changes nothing, one that lacks only its newline is a change, and what is posted then is kept at the next start.
"""
import json, os, random, subprocess, sys, tempfile, threading, time
from running import Closed, Wiki, api, compare_pages, ended, held_port, replayed, started

CHANGES = ("word", "reword", "unword", "add", "edit", "remove", "retract", "reassert", "commit")
HERE = os.path.dirname(os.path.abspath(__file__))


class Client(threading.Thread):
    """Posts changes one after the other until the program is gone, and notes those that it got a response to."""

    def __init__(self, wiki, seed):
        super().__init__()
        self.wiki, self.draw, self.told, self.sent, self.session = wiki, random.Random(seed), [], None, None
        self.fresh = f"{seed:x}".translate(str.maketrans("0123456789", "ghijklmnop"))

    def run(self):
        try:
            while True:
                self.turn()
        except (OSError, Closed):
            pass

    def ask(self, **request):
        """Posts a request. Its reply is returned, and noted where it tells of a change."""
        self.sent = request
        reply = json.loads(self.wiki.send(api(request), 20)[2])
        if reply.get("done") in CHANGES:
            self.told.append(self.line(request, reply))
        self.sent = None
        return reply

    def line(self, request, reply):
        """The journal's line of a change; of a commit its text isn't known here."""
        if request["do"] == "commit":
            return {"do": "add", "article": reply["article"]}
        return request

    def turn(self):
        draw = self.draw
        noun, other, name = draw.choice(NOUNS), draw.choice(NOUNS), draw.choice(NAMES)
        text = draw.choice([f"{name} is a {noun}.", f"Every {noun} is a {other}.", f"No {noun} is a {other}.", f"Who is a {noun}?",
                            f"{name} sees {draw.choice(NAMES)}.", f"Every {noun} sees a {other}."])
        article, place = draw.choice(NOUNS + NAMES), draw.randrange(6)
        kind = draw.randrange(12)
        if kind < 4:
            self.ask(do="add", article=article, text=text)
        elif kind == 4:
            self.ask(do="add", article=article, at=place, text=text)
        elif kind == 5:
            self.ask(do="edit", article=article, at=place, text=text)
        elif kind < 8:
            self.ask(do="remove", article=article, at=place)
        elif kind == 8:
            self.ask(do=draw.choice(["retract", "reassert"]), article=article, at=place)
        elif kind == 9:
            word = self.fresh + draw.choice("qrstuvwxyz")
            self.ask(do="word", kind="name", forms=[word])
            if draw.randrange(2):
                self.ask(do="reword", word=word, forms=[word + "e"])
            else:
                self.ask(do="unword", word=word)
        else:
            self.commit(article, ["no", noun, "is", "a", other, "."])

    def commit(self, article, tokens):
        self.session = self.ask(do="open", article=article).get("session")
        if self.session:
            for token in tokens:
                self.ask(do="type", session=self.session, text=token)
            self.ask(do="commit", session=self.session)
            self.ask(do="drop", session=self.session)


NOUNS, NAMES = ["cat", "dog", "fox"], ["Ada", "Bob"]
FIRST = b"".join(json.dumps(dict(do="word", kind=kind, forms=[form])).encode() + b"\n"
                 for kind, forms in [("noun", NOUNS), ("name", NAMES), ("verb", ["see"])] for form in forms)


def is_line(line, told):
    """The journal's line is that of the change: of a commit the text may be any."""
    return line == told or (set(told) == {"do", "article"} and {key: line.get(key) for key in told} == told and "at" not in line)


def check_journal(written, clients):
    """Each client's changes stand in the journal in their order, and at most one more of each."""
    lines = [json.loads(line) for line in written.split(b"\n") if line]
    for client in clients:
        at = 0
        for told in client.told:
            while at < len(lines) and not is_line(lines[at], told):
                at += 1
            if at == len(lines):
                raise SystemExit(f"kill: a change was acknowledged and isn't in the journal: {told}")
            at += 1
    known = sum(len(client.told) for client in clients)
    if not known <= len(lines) <= known + len(clients):
        raise SystemExit(f"kill: {known} changes were acknowledged to {len(clients)} clients, so as many stand in the journal or one more of each; {len(lines)} do")
    return known


def kills(program, count, seed):
    """So many kills, from the first lines on; the journal of each start follows the lines that it began with."""
    draw, lines, known = random.Random(seed), FIRST, 0
    wiki = Wiki(program, lines)
    for number in range(count):
        clients = [Client(wiki, seed * 10000 + number * 10 + k) for k in range(3)]
        for client in clients:
            client.start()
        time.sleep(draw.uniform(0.0, 0.15))
        written = wiki.kill()
        for client in clients:
            client.join()
        known += check_journal(written, clients)
        lines = ended(lines) + ended(written)
        wiki = Wiki(program, lines)
        compare_pages(program, wiki, lines, "kill: after a kill")
        reply = wiki.ask(do="menu", session=1)
        if reply.get("name") != "NoSession":
            raise SystemExit(f"kill: after a start session 1 has the menu {reply}, and not a refusal NoSession")
    wiki.stop()
    return known


class Kept:
    """A wiki in one file, as tools/serve keeps it."""

    def __init__(self, program, path):
        self.port, self.held = held_port()
        tool = os.path.join(os.path.dirname(HERE), "tools", "serve")
        self.process = started([tool, path, f"127.0.0.1:{self.port}"], env=dict(os.environ, ACEWIKI=program),
                               stdin=subprocess.DEVNULL, stdout=subprocess.DEVNULL, stderr=subprocess.PIPE)
        self.wait()

    connect, wait, send, ask, page = Wiki.connect, Wiki.wait, Wiki.send, Wiki.ask, Wiki.page

    def stop(self):
        """Ends it by a signal that tools/serve passes on, so that the file is free when it has ended."""
        if self.process.poll() is None:
            self.process.terminate()
            self.process.wait()


def cuts(program, step):
    """The last line of a wiki's file is cut at its bytes; then a change is posted, and the program starts anew."""
    before = FIRST + b'{"article":"Ada","do":"add","text":"Ada is a cat."}\n'
    last = b'{"article":"Bob","do":"add","text":"Bob is a dog that is a fox."}\n'
    more = b'{"article":"Ada","do":"add","text":"Ada sees Bob."}\n'
    folder = tempfile.TemporaryDirectory()
    path = os.path.join(folder.name, "wiki")
    cases = sorted({*range(0, len(last) + 1, step), len(last) - 2, len(last) - 1, len(last)})
    for cut in cases:
        with open(path, "wb") as it:
            it.write(before + last[:cut])
        whole = cut >= len(last) - 1
        for turn in range(2):
            wiki = Kept(program, path)
            if turn == 0:
                reply = wiki.ask(do="add", article="Ada", text="Ada sees Bob.")
                if reply != {"done": "add", "status": "asserted"}:
                    raise SystemExit(f"kill: cut at {cut}, a sentence that is added then has the reply {reply}, and isn't asserted")
            compare_pages(program, wiki, before + (last if whole else b"") + more, f"kill: cut at {cut}")
            wiki.stop()
        with open(path, "rb") as it:
            kept = it.read()
        if kept != ended(before + last[:cut]) + more:
            raise SystemExit(f"kill: cut at {cut}, the file is {kept!r}, and not {ended(before + last[:cut]) + more!r}")
        replies = replayed(program, before + last[:cut])
        wanted = [] if cut == 0 else [{"done": "add", "status": "asserted"} if whole else {"name": "BadRequest", "refused": 0}]
        if replies[len(before.splitlines()):] != wanted:
            raise SystemExit(f"kill: cut at {cut}, replay tells {replies[len(before.splitlines()):]} to the line that was cut, and not {wanted}")
    return len(cases)


def main():
    program, is_long, begun = os.path.abspath(sys.argv[1]), sys.argv[2:] == ["long"], time.time()
    known = sum(kills(program, 10, seed) for seed in range(20)) if is_long else kills(program, 6, 5)
    count = cuts(program, 1 if is_long else 13)
    print(f"kill: {known} acknowledged changes kept over {200 if is_long else 6} kills, {count} cuts, in {time.time() - begun:.1f} s")


main()
