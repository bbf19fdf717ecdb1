"""compact.py PROGRAM: random journals are made by the program and made short by tools/compact, and must lead to the same words,
articles, sentences, statuses and answers. Then each cause for which a file stays as it is, and what happens to files, names and
locks. Of a failure one line says what was expected and what came.
"""
import glob, json, os, random, subprocess, sys, tempfile
from running import end_all, form_of, started

PROGRAM = os.path.abspath(sys.argv[1])
TOOLS = os.path.join(os.path.dirname(os.path.dirname(os.path.abspath(__file__))), "tools")
KINDS = dict(city="noun", town="noun", river="noun", Bern="name", Aare="name", border="verb")


def expect(what, wanted, got):
    if wanted != got:
        sys.exit(f"compact: {what}: expected {wanted!r}, came {got!r}")


def expect_part(what, part, got):
    if part not in got:
        sys.exit(f"compact: {what}: expected a text with {part!r}, came {got!r}")


def lines_of(*requests):
    return b"".join(json.dumps(request).encode() + b"\n" for request in requests)


def word(form):
    return dict(do="word", kind=KINDS[form], forms=[form])


def add(article, text, **at):
    return dict(do="add", article=article, text=text, **at)


def change(do, article, at, **text):
    return dict(do=do, article=article, at=at, **text)


def wiki_of(lines, *options):
    """What the wiki of a journal tells, without revisions."""
    lines += b"\n"
    words = replies(lines + b'{"do":"words"}\n', *options)[-1]["words"]
    reads = lines_of(*(dict(do="read", article=form_of(word)) for word in words))
    articles = replies(lines + reads, *options)[-len(words):] if words else []
    return words, [article["sentences"] for article in articles]


def replies(lines, *options):
    ran = subprocess.run([PROGRAM, "replay", *options], input=lines, stdout=subprocess.PIPE, check=True)
    return [json.loads(line) for line in ran.stdout.splitlines()]


def read(path):
    with open(path, "rb") as it:
        return it.read()


def write(path, lines):
    with open(path, "wb") as it:
        it.write(lines)


def tool(name, *words, program=PROGRAM, before=(), **more):
    """Runs a tool, and returns its status and what it said."""
    environment = {**os.environ, "ACEWIKI": program, "REAL": PROGRAM, **more}
    ran = subprocess.run([*before, f"{TOOLS}/{name}", *words], env=environment, capture_output=True, timeout=300)
    return ran.returncode, (ran.stdout + ran.stderr).decode()


def olds(path):
    return sorted(glob.glob(glob.escape(path) + ".old-*"))


def is_made_short(what, path, *options):
    """A file is replaced by a shorter one that leads to the same wiki, and the old one is kept."""
    lines, names = read(path), set(os.listdir("."))
    status, said = tool("compact", path, *options)
    expect(f"{what}, the status ({said.strip()})", 0, status)
    expect_part(what, f" has {len(read(path))} bytes instead of {len(lines)}; ", said)
    more = set(os.listdir(".")) - names
    expect(f"{what}, what is beside it", [(True, lines)], [(name.startswith(f"{path}.old-"), read(name)) for name in more])
    expect(f"{what}, the wiki", wiki_of(lines, *options), wiki_of(read(path), *options))
    os.unlink(more.pop())


def stays(what, path, cause, *options, **more):
    """A file stays as it is, for a cause that is told, and nothing is left beside it."""
    lines, number, names = read(path), os.stat(path).st_ino, sorted(os.listdir("."))
    status, said = tool("compact", path, *options, **more)
    expect_part(what, cause, said)
    expect(f"{what}, the status", 1, status)
    expect(f"{what}, the lines told", 1, said.count("\n"))
    expect(f"{what}, the file", (lines, number), (read(path), os.stat(path).st_ino))
    expect(f"{what}, the folder", names, sorted(os.listdir(".")))


class Journal:
    """A journal that grows by random changes. Where it is `gentle`, what counts is neither edited nor removed, so that a red
    sentence keeps its reason.
    """

    def __init__(self, seed, gentle):
        self.draw, self.gentle = random.Random(seed), gentle
        self.process = subprocess.Popen([PROGRAM, "replay"], stdin=subprocess.PIPE, stdout=subprocess.PIPE)
        self.lines = b""
        for form in KINDS:
            self.ask(word(form))
        for _ in range(36):
            self.ask(self.change())
        self.process.communicate()

    def ask(self, request):
        line = lines_of(request)
        self.process.stdin.write(line)
        self.process.stdin.flush()
        reply = json.loads(self.process.stdout.readline())
        # One line in three of those that change nothing stands in the journal too.
        if request["do"] not in ("words", "read") and ("done" in reply or self.draw.randrange(3) == 0):
            self.lines += line
        return reply

    def form(self, kind):
        words = [word for word in self.words if word["kind"] == kind]
        return form_of(self.draw.choice(words)) if words else "none"

    def text(self):
        noun, other, name, verb = (self.form(kind) for kind in ("noun", "noun", "name", "verb"))
        return self.draw.choice([
            f"{name} is a {noun}.", f"Every {noun} is a {other}.", f"No {noun} is a {other}.", f"{name} is not a {noun}.",
            f"Who is a {noun}?", f"Every {noun} does not {verb} {name}.", f"If X is a {noun} then X is a {noun}."])

    def change(self):
        draw, self.words = self.draw, self.ask(dict(do="words"))["words"]
        kind = draw.choice(["noun", "noun", "name"])
        article, at = self.form(kind), draw.randrange(3)
        sentences = self.ask(dict(do="read", article=article)).get("sentences", [])
        do = draw.choice(["add"] * 8 + ["edit"] * 2 + ["remove"] * 3 + ["retract"] * 4 + ["reassert"] * 5 + ["word", "reword", "unword"])
        if self.gentle and do in ("edit", "remove") and at < len(sentences) and sentences[at]["status"] in ("asserted", "retracted"):
            do = "add"
        form = f"{article}-{draw.choice('abc')}"
        return {
            "add": add(article, self.text(), **({} if draw.randrange(2) else {"at": at})),
            "edit": change("edit", article, at, text=self.text()),
            "word": dict(do="word", kind=kind, forms=[form]),
            "reword": dict(do="reword", word=article, forms=[article] if kind == "name" else [article, form]),
            "unword": dict(do="unword", word=article)}.get(do, change(do, article, at))


def random_journals():
    made_short = 0
    for seed in range(9, 13):
        gentle = seed % 2 == 0
        write("random", Journal(seed, gentle).lines)
        lines = read("random")
        if gentle:
            is_made_short(f"the gentle journal {seed}", "random")
        elif tool("compact", "random")[0] == 0:
            expect(f"the journal {seed}, the wiki", wiki_of(lines), wiki_of(read("random")))
            made_short += 1
        else:
            stays(f"the journal {seed}", "random", " is red, and what it contradicts is gone: it would be asserted")
            expect(f"the journal {seed}", lines, read("random"))
    expect("how many of the other journals were made short", 1, made_short)


WORDS = [word("city"), word("town"), word("Bern")]
NO_CITY = add("city", "No city is a town.")
IS_CITY, IS_TOWN = add("Bern", "Bern is a city."), add("Bern", "Bern is a town.")
LONG = lines_of(*WORDS, IS_CITY, NO_CITY, word("Aare"), IS_TOWN, dict(do="unword", word="Aare"))


def reasons():
    """Sentences that are red, and what became of their reasons."""
    write("red", lines_of(*WORDS, NO_CITY, IS_CITY, IS_TOWN, change("remove", "city", 0)))
    stays("a reason that went", "red", '"Bern is a town." in the article Bern is red, and what it contradicts is gone')
    write("red", lines_of(*WORDS, NO_CITY, IS_CITY, IS_TOWN, change("retract", "city", 0), change("edit", "Bern", 0, text="Bern is Bern.")))
    stays("a reason that was edited", "red", "what it contradicts is gone")
    write("red", read("red") + lines_of(add("Bern", IS_CITY["text"]), change("reassert", "city", 0)))
    is_made_short("a reason that came back", "red")
    write("red", lines_of(*WORDS, NO_CITY, IS_CITY, IS_TOWN, change("retract", "city", 0), NO_CITY, change("remove", "city", 1)))
    is_made_short("a reason that is retracted", "red")
    # What made it red counted then, but neither when it last came to count nor now.
    write("red", lines_of(*WORDS, NO_CITY, IS_CITY, IS_TOWN, change("retract", "city", 0), change("retract", "Bern", 0),
                          change("reassert", "city", 0), change("retract", "city", 0), change("reassert", "Bern", 0)))
    is_made_short("sentences that count by turns", "red")
    write("red", lines_of(*WORDS, word("river"), add("city", "Every city is a town."), add("town", "Every town is a river."),
                          add("Bern", "Bern is a city or is a town."), change("remove", "city", 0)))
    stays("a budget that was spent", "red", "is red since a search spent its budget, and would be asserted", "--budget", "1")


def lines_and_words():
    write("wiki", LONG + b'{"do":"word","kind":"name","forms":["Bo')
    is_made_short("a last line that is cut", "wiki")
    write("wiki", LONG + b"\0" * 70000 + b"\n{}\n\xff\n" + LONG[:-1])
    is_made_short("lines that are no requests, and a last one without its newline", "wiki")
    lines, number = read("wiki"), os.stat("wiki").st_ino
    status, said = tool("compact", "wiki")
    expect("a short journal", (0, f"compact: wiki is as short as it gets: {len(lines)} bytes\n"), (status, said))
    expect("a short journal, the file", (lines, number), (read("wiki"), os.stat("wiki").st_ino))
    write("wiki", lines_of(word("border"), dict(do="word", kind="noun", forms=["city", "cities"]), word("Bern"), word("Aare"),
                           dict(do="reword", word="city", forms=["town", "towns"]), word("city"),
                           dict(do="reword", word="border", forms=["borders", "border", "borderd"]),
                           dict(do="reword", word="Bern", forms=["Basel"]), dict(do="reword", word="Aare", forms=["Bern"]),
                           add("Bern", "Bern borders a city."), add("Basel", "Basel is a town."), change("remove", "Basel", 0)))
    is_made_short("forms that went from word to word", "wiki")
    write("wiki", LONG + lines_of(dict(do="open", article="city"), *(dict(do="type", session=1, text=text) for text in
                                  ["Every", "city", "is", "something", "."]), dict(do="commit", session=1)))
    is_made_short("a session", "wiki")
    taken = subprocess.run([f"{TOOLS}/grammar", f"{TOOLS}/../grammars/english-more.codeco"], stdout=subprocess.PIPE, check=True).stdout
    write("wiki", LONG + lines_of(dict(do="grammar", text="text --> ."), add("city", "Every city is a city.")) + taken
          + lines_of(add("city", "All cities are cities."), change("remove", "city", 1)))
    is_made_short("a grammar", "wiki")
    expect("a grammar, the first line", [taken], read("wiki").splitlines(keepends=True)[:1])
    for words in ([], [""], ["wiki", "wiki"], ["wiki", "--budget"], ["wiki", "--budget", "1000000001"], ["wiki", "--steps", "1"]):
        status, said = tool("compact", *words)
        expect(f"the words {words} ({said.strip()})", 2, status)
    expect("--help", 0, tool("compact", "--help")[0])


def files():
    for name in ("a b", "-n", "two\nlines", "[a]*$(b)\\"):
        write(name, LONG)
        is_made_short(f"the name {name!r}", name)
    os.mkdir("other")
    write("other/wiki", LONG)
    os.chmod("other/wiki", 0o640)
    os.symlink("other/wiki", "link")
    status, said = tool("compact", "link")
    expect(f"a link ({said.strip()}), the status, whether it is one, and the rights", (0, True, 0o100640),
           (status, os.path.islink("link"), os.stat("link").st_mode))
    expect("a link, the old file", [LONG], [read(name) for name in olds("other/wiki")])
    expect("a link, the wiki", wiki_of(LONG), wiki_of(read("other/wiki")))
    write("other/wiki", LONG)
    os.chmod("other", 0o555)
    powerless = ("setpriv", "--bounding-set=-all", "--inh-caps=-all") if os.geteuid() == 0 else ()
    stays("a folder that can't be written", "other/wiki", "Permission denied", before=powerless)
    os.chmod("other", 0o755)
    os.mkfifo("pipe")
    for name, cause in (("other", "it is no file"), ("pipe", "it is no file"), ("none", "No such file or directory")):
        status, said = tool("compact", name)
        expect(f"the file {name}", (1, f"compact: {name} stays as it is: {cause}\n"), (status, said))


def patched(code, *words):
    """Runs tools/compact after these lines of Python."""
    start = f"import fcntl, os, runpy, signal, sys, time\n{code}\nsys.argv[0] = {TOOLS!r} + '/compact'\n"
    start += "runpy.run_path(sys.argv[0], run_name='__main__')"
    ran = subprocess.run([sys.executable, "-c", start, *words], env={**os.environ, "ACEWIKI": PROGRAM}, capture_output=True)
    return ran.returncode, (ran.stdout + ran.stderr).decode()


def steps():
    """What happens between the steps: the program is a script that does something first at one of its starts."""
    with open("program", "w") as it:
        it.write('#!/bin/sh\necho >>starts\n[ "$(wc -l <starts)" -ne "$AT" ] || eval "$DO"\nexec "$REAL" "$@"\n')
    os.chmod("program", 0o755)

    def at_start(number, do):
        write("starts", b"")
        return dict(program="./program", AT=str(number), DO=do)

    write("wiki", LONG)
    for name in olds("wiki"):
        os.unlink(name)
    stays("a change in the meantime", "wiki", "it was written to in the meantime", **at_start(1, "touch -d tomorrow wiki"))
    stays("a program that ends", "wiki", "ended with status 9", **at_start(2, "exit 9"))
    stays("no program", "wiki", "can't be run: No such file or directory", program="./none")
    status, said = tool("compact", "wiki", **at_start(3, "kill -KILL $PPID"))
    expect(f"a kill before the end ({said.strip()})", (-9, LONG), (status, read("wiki")))
    for name in glob.glob("wiki.new-*"):
        os.unlink(name)
    status, said = patched("os.replace = lambda *_: os.kill(os.getpid(), signal.SIGKILL)", "wiki")
    expect(f"a kill before the renaming ({said.strip()})", (-9, LONG), (status, read("wiki")))
    for name in olds("wiki") + glob.glob("wiki.new-*"):
        os.unlink(name)
    write("wiki.old-now", b"mine")
    status, said = patched("time.strftime = lambda *_: 'now'", "wiki")
    expect("a name that is taken", (0, b"mine", LONG), (status, read("wiki.old-now"), read("wiki.old-now-2")))
    write("wiki", LONG)
    status, said = patched("def link(*_):\n raise OSError(1, 'no links')\nos.link, time.strftime = link, lambda *_: 'then'", "wiki")
    expect(f"no hard links ({said.strip()})", (0, LONG), (status, read("wiki.old-then")))
    expect("no hard links, the wiki", wiki_of(LONG), wiki_of(read("wiki")))
    other = LONG + lines_of(word("Aare"), word("river"))
    write("wiki", LONG)
    write("second", other)
    code = "lock = fcntl.flock\ndef flock(*words):\n if os.path.exists('second'): os.replace('second', 'wiki')\n lock(*words)\n"
    code += "fcntl.flock = flock"
    expect("a file that is put in place before the lock", 0, patched(code, "wiki")[0])
    expect("a file that is put in place before the lock, the wiki", wiki_of(other), wiki_of(read("wiki")))
    write("wiki", LONG)
    status, said = tool("compact", "wiki", **at_start(1, f'"{TOOLS}/serve" wiki 127.0.0.1:0 >said 2>&1'))
    expect(f"tools/serve in the meantime ({said.strip()}), the status", 0, status)
    expect("tools/serve in the meantime", b"serve: wiki is being served or compacted already\n", read("said"))


def served(path):
    """tools/serve on a file, and what it said until it listens."""
    wiki = started([f"{TOOLS}/serve", path, "127.0.0.1:0"], env={**os.environ, "ACEWIKI": PROGRAM}, stderr=subprocess.PIPE)
    said = b""
    while b"AceWiki: " not in said:
        line = wiki.stderr.readline()
        said += line
        if not line:
            sys.exit(f"compact: tools/serve: expected that it listens, came {said!r}")
    return wiki, said.decode()


def serving():
    write("served", LONG)
    wiki, said = served("served")
    expect_part("the size of a file", f"AceWiki: served ({len(LONG)} bytes) at ", said)
    expect("what is said of a short file", 1, said.count("\n"))
    stays("a file that is served", "served", "it is being served")
    wiki.terminate()
    wiki.communicate()
    write("served", LONG + 500 * lines_of(word("Aare"), dict(do="unword", word="Aare")))
    wiki, said = served("served")
    wiki.terminate()
    wiki.communicate()
    expect_part("a long file", "serve: of the 1008 lines of served about 6 are needed: tools/compact makes it short\n", said)
    is_made_short("a file that was served", "served")


def main():
    with tempfile.TemporaryDirectory() as folder:
        os.chdir(folder)
        for test in (reasons, lines_and_words, files, steps, serving, random_journals):
            test()


main()
