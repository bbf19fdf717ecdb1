"""grammar.py PROGRAM: the request `grammar` of docs/PROTOCOL.md, with the built-in grammar as grammars/english.codeco has it.

A session goes on by the new grammar; each cause that stands against a text is told, and changes nothing; and a journal in which
grammars stand leads to the same pages and menus.
"""
import json, os, re, subprocess, sys
from running import BAD_REQUEST, Wiki

PROGRAM = os.path.abspath(sys.argv[1])
FOLDER = os.path.dirname(os.path.dirname(os.path.abspath(__file__)))
ENGLISH = json.loads(subprocess.check_output([f"{FOLDER}/tools/grammar", f"{FOLDER}/grammars/english.codeco"]))["text"]
BY_WHICH = ENGLISH + " {mark} rp --> [which]."
SMALL = "{statement} text --> s. {say} s --> n v. {something} n --> [x] > r. {top} v --> [y]."
DONE = {"done": "grammar"}

WORDS = [("name", ["Mary"]), ("noun", ["cat", "cats"]), ("noun", ["man", "men"]), ("noun", ["dog", "dogs"]),
         ("verb", ["sees", "see", "seen"]), ("verb", ["owns", "own", "owned"])]
SENTENCES = [("man", "Every man owns only dogs."), ("dog", "Every dog that is a cat is a man."), ("man", "Mary is a man."),
             ("cat", "Which dogs does Mary own?")]

# A text with each fault, its name and its place; and what is no fault, since that of the least number is told.
FAULTS = [
    ("text --> a", "Syntax", 10), ("text ->", "Syntax", 6), ("{fish} text --> [a].", "Syntax", 1), ("text --> [a] [].", "Syntax", 14),
    ("text --> " + "[a] " * 17 + ".", "TooLarge", 1), ("text --> b. b --> [" + "a" * 65 + "].", "TooLarge", 2),
    ("text --> [a]. " * 501, "TooLarge", 501), ("text --> b(j: p). b --> [a].", "Undeclared", 1), ("text --> b. b(j: p) --> [a].", "Undeclared", 2),
    ("feature k: q. text --> b(k: p). b --> [a].", "BadValue", 1), ("feature k: q. feature k: q. text --> [a].", "BadValue", 0),
    ("text --> .", "EmptyRule", 1), ("text --> text. b --> .", "EmptyRule", 2), ("text --> text [a].", "LeftRecursion", 1),
    ("text --> [a] b. b --> c [a]. c --> b.", "LeftRecursion", 2),
    ("feature j: position. feature k: position. text --> < +b(j: ?I, k: I) [a].", "TakenVariable", 1),
    ("{statement} text --> s [a]. {mark} s --> [b].", "LabelKind", 1), ("text --> s [a]. {mark} s --> [b].", "LabelKind", 2),
    ("b --> [a].", "NoStart", 0), ("", "NoStart", 0), (" % text", "NoStart", 0)]


def expect(what, wanted, got):
    if wanted != got:
        sys.exit(f"grammar: {what}: expected {wanted!r}, came {got!r}")


def rules_without(number):
    """The built-in text without one of its rules."""
    items = re.split(r"(?<=\.) (?=[{]|feature )", ENGLISH)
    rules = [item for item in items if not item.startswith("feature ")]
    return " ".join(item for item in items if item is not rules[number - 1])


def request_lines():
    lines = [dict(do="word", kind=kind, forms=forms) for kind, forms in WORDS]
    return lines + [dict(do="add", article=article, text=text) for article, text in SENTENCES]


class Pipe:
    def __init__(self):
        self.process = subprocess.Popen([PROGRAM, "replay"], stdin=subprocess.PIPE, stdout=subprocess.PIPE)
        for request in request_lines():
            expect(f"the reply to {request}", request["do"], self.ask(**request).get("done"))

    def ask(self, **request):
        self.process.stdin.write(json.dumps(request).encode() + b"\n")
        self.process.stdin.flush()
        return json.loads(self.process.stdout.readline())

    def give(self, text):
        return self.ask(do="grammar", text=text)

    def functions(self, session):
        return self.ask(do="menu", session=session)["menu"]["function"]

    def told(self):
        words = self.ask(do="words")["words"]
        return words, [self.ask(do="read", article=word["forms"][0]) for word in words], self.ask(do="menu", session=1)


def typed(wiki, article, tokens):
    session = wiki.ask(do="open", article=article)["session"]
    for token in tokens:
        expect(f"the reply to {token}", "type", wiki.ask(do="type", session=session, text=token).get("done"))
    return session


def sessions():
    """A session keeps its tokens where they can still be typed, and its menu is that of the new grammar."""
    wiki = Pipe()
    session = typed(wiki, "cat", ["Mary", "sees", "a", "cat"])
    expect("a menu", [".", "and", "or", "that", "who"], wiki.functions(session))
    expect("the built-in grammar", DONE, wiki.give(ENGLISH))
    expect("a menu by it", [".", "and", "or", "that", "who"], wiki.functions(session))
    before = wiki.told()
    expect("a grammar with `which`", DONE, wiki.give(BY_WHICH))
    expect("its menu", [".", "and", "or", "that", "which", "who"], wiki.functions(session))
    expect("words and articles", before[:2], wiki.told()[:2])
    for token in ("which", "is", "a", "dog", "."):
        expect(f"the reply to {token}", "type", wiki.ask(do="type", session=session, text=token).get("done"))
    expect("a grammar without it", DONE, wiki.give(ENGLISH))
    expect("the menu of what is left", [".", "and", "or", "that", "who"], wiki.functions(session))
    expect("how much is left", {"done": "back", "tokens": 3}, wiki.ask(do="back", session=session))
    expect("undo", {"name": "Nothing", "refused": 10}, wiki.ask(do="undo"))


def causes():
    """What stands against a text, of several causes the first, and nothing is changed by it."""
    wiki = Pipe()
    typed(wiki, "man", ["Every", "man"])
    before = wiki.told()
    for text, name, place in FAULTS:
        expect(f"the fault of {text[:80]}", {"at": place, "fault": name, "name": "GrammarRefused", "refused": 16}, wiki.give(text))
    for text in ("text --> [a].", "text --> [dog] [cat]."):
        expect(f"no labels: {text}", {"name": "Bare", "refused": 17}, wiki.give(text))
    for form in ("dog", "dogs", "owned", "Mary"):
        expect(f"the form {form}", {"name": "Reserved", "refused": 4, "text": form}, wiki.give(ENGLISH + f" {{mark}} rp --> [{form}]."))
    several = " {mark} rp --> [owned]. {mark} rp --> [men]. {mark} rp --> [man]."
    expect("several forms", {"name": "Reserved", "refused": 4, "text": "man"}, wiki.give(ENGLISH + several))
    expect("a form and a sentence", {"name": "Reserved", "refused": 4, "text": "dog"}, wiki.give(SMALL + " {top} v --> [dog]."))
    expect("a sentence", {"article": "man", "at": 0, "name": "Breaks", "refused": 14}, wiki.give(rules_without(17)))
    expect("all sentences", {"article": "cat", "at": 0, "name": "Breaks", "refused": 14}, wiki.give(SMALL))
    expect("another sentence", {"article": "dog", "at": 0, "name": "Breaks", "refused": 14}, wiki.give(rules_without(46)))
    expect("a question", {"article": "cat", "at": 0, "name": "Breaks", "refused": 14}, wiki.give(rules_without(81)))
    denied = ENGLISH.replace("{every} qp(id: I) --> [every]", "{no} qp(id: I) --> [every]")
    expect("the other meaning is another text", True, denied != ENGLISH)
    expect("another meaning", {"article": "man", "at": 0, "name": "Breaks", "refused": 14}, wiki.give(denied))
    expect("all that the wiki tells", before, wiki.told())
    expect("a member is missing", BAD_REQUEST, wiki.ask(do="grammar"))
    expect("a text that isn't one", BAD_REQUEST, wiki.ask(do="grammar", text=None))


def forms():
    """Words of the old grammar may be forms by the new one, and the other way round."""
    wiki = Pipe()
    expect("a word of the grammar", {"name": "Reserved", "refused": 4, "text": "only"}, wiki.ask(do="word", kind="name", forms=["only"]))
    for article, at in (("man", 0), ("man", 0), ("dog", 0), ("cat", 0)):
        expect("a sentence that goes", {"done": "remove"}, wiki.ask(do="remove", article=article, at=at))
    expect("a small grammar", DONE, wiki.give(SMALL))
    expect("a form", {"done": "word"}, wiki.ask(do="word", kind="name", forms=["only"]))
    expect("a form of the small grammar", {"name": "Reserved", "refused": 4, "text": "y"}, wiki.ask(do="word", kind="name", forms=["y"]))
    expect("a code by it", {"code": [1, 2, 3, 4], "done": "parse"}, wiki.ask(do="parse", text="x y"))
    expect("a sentence by the old one", {"k": 0, "refused": 12}, part(wiki.ask(do="parse", text="Mary is a man."), "k", "refused"))
    expect("the old grammar", {"name": "Reserved", "refused": 4, "text": "only"}, wiki.give(ENGLISH))


def part(reply, *names):
    return {name: reply.get(name) for name in names}


def pages(wiki):
    """What the pages of the index and of articles show, and the menus of new sessions."""
    words = wiki.ask(do="words")["words"]
    found = [wiki.page("/")[2]] + [wiki.page("/article/" + word["forms"][0])[2] for word in words]
    for word in words:
        session = typed(wiki, word["forms"][0], ["Mary", "is", "a", "man"])
        found.append(wiki.ask(do="menu", session=session))
        wiki.ask(do="drop", session=session)
    return words, found


def line_of(text):
    """The line by which the journal has a grammar."""
    return b'{"do":"grammar","text":' + json.dumps(text, ensure_ascii=False).encode() + b"}"


def sent(wiki, text):
    """The status and the body of the response to a grammar that is sent as the journal has it."""
    line = line_of(text)
    status, _, body = wiki.send(b"POST /api HTTP/1.1\r\nHost: here\r\nContent-Length: %d\r\n\r\n%s" % (len(line), line))
    return status, body


def journal():
    """A grammar that comes over a connection stands in the journal where it was taken, and the next start knows it."""
    former = b"".join(json.dumps(request).encode() + b"\n" for request in request_lines())
    wiki = Wiki(PROGRAM, former)
    expect("a grammar", DONE, wiki.ask(do="grammar", text=BY_WHICH))
    expect("a sentence by it", "asserted", wiki.ask(do="add", article="man", text="Every man which owns a dog is a cat.").get("status"))
    for text, status, refused in (("text -->", 409, 16), ("text --> [a].", 409, 17), (ENGLISH, 409, 14), (ENGLISH + " " * 65536, 413, None)):
        got, body = sent(wiki, text)
        expect(f"the response to {text[:40]}", (status, refused), (got, json.loads(body)["refused"] if got == 409 else None))
    room = 65535 - len(line_of(BY_WHICH))
    got, body = sent(wiki, BY_WHICH + " " * room)
    expect("the longest grammar", (200, DONE), (got, json.loads(body)))
    got, body = sent(wiki, BY_WHICH + " " * (room + 1))
    expect("a longer one", (400, True), (got, b"0 BadRequest" in body))
    expect("a word", {"done": "word"}, wiki.ask(do="word", kind="name", forms=["Bill"]))
    expect("another sentence", "asserted", wiki.ask(do="add", article="Bill", text="Bill is a cat which is a dog.").get("status"))
    told = pages(wiki)
    lines = wiki.kill()
    expect("what the journal tells", ["grammar", "add", "grammar", "word", "add"], [json.loads(line)["do"] for line in lines.splitlines()])
    expect("the line of a grammar", line_of(BY_WHICH), lines.splitlines()[0])
    expect("the longest line", 65536, max(len(line) for line in lines.splitlines(True)))
    again = Wiki(PROGRAM, former + lines)
    expect("the next start", told, pages(again))
    again.stop()


for test in (sessions, causes, forms, journal):
    test()
