"""history.py PROGRAM [SEED [RUNS]]: changes of sentences that are taken back and done again, on random lines.

What `undo` and `redo` leave is worked out here by docs/PROTOCOL.md from what `read` told before each change, and compared with what
`read` tells then: places, texts, statuses, and that the revision of the one article rises by one and of no other.
"""
import json, random, subprocess, sys

WORDS = [("noun", "city"), ("noun", "country"), ("noun", "town"), ("verb", "border"), ("name", "Bern"), ("name", "Basel"), ("name", "Ann")]
FORMS = [form for _, form in WORDS]
SENTENCES = ["Every city is a town.", "No city is a country.", "Bern is a city.", "Bern is a country.", "Basel borders Bern.",
    "Bern does not border Basel.", "If X borders Y then Y borders X.", "If X borders Y and Y borders Z then X borders Z.", "Ann is Bern.",
    "Ann is not Bern.", "Which cities border Basel?", "Who is a town?", "Every town that is a city borders a city.", "It is a city.",
    "Every man sleeps", "Nothing is a town."]
CHANGES = ("add", "edit", "remove", "retract", "reassert", "commit")


class Pipe:
    def __init__(self, program):
        self.process = subprocess.Popen([program, "replay"], stdin=subprocess.PIPE, stdout=subprocess.PIPE)

    def ask(self, **request):
        self.process.stdin.write(json.dumps(request).encode() + b"\n")
        self.process.stdin.flush()
        return json.loads(self.process.stdout.readline())

    def read(self, article):
        told = self.ask(do="read", article=article)
        return told["revision"], [(s["status"], s["text"]) for s in told["sentences"]]

    def all(self):
        return {form: self.read(form) for form in FORMS}


def drawn(draw, articles, session):
    """A request, and the article that it changes where it is done."""
    article = draw.choice(FORMS)
    at = draw.randrange(len(articles[article][1]) + 2)
    kind = draw.choice(["add"] * 6 + ["edit", "remove", "retract", "retract", "reassert", "reassert", "undo", "undo", "undo", "redo", "redo", "commit", "word", "reword"])
    if kind == "word":
        return ({"do": "word", "kind": "name", "forms": ["N" + "".join(draw.choice("abcdefg") for _ in range(6))]} if draw.random() < 0.2 else {"do": "words"}), None
    if kind == "reword":
        return ({"do": "reword", "word": "Ann", "forms": ["Ann"]} if draw.random() < 0.2 else {"do": "find", "word": "Ann"}), None
    if kind == "commit":
        return {"do": "commit", "session": session[0]}, session[1]
    if kind in ("undo", "redo"):
        return {"do": kind}, None
    request = {"do": kind, "article": article, "at": at}
    if kind in ("add", "edit"):
        request["text"] = draw.choice(SENTENCES)
    if kind == "add" and draw.random() < 0.5:
        del request["at"]
    return request, article


def run(program, seed, steps):
    draw, wiki = random.Random(seed), Pipe(program)
    for kind, form in WORDS:
        wiki.ask(do="word", kind=kind, forms=[form])
    number = wiki.ask(do="open", article="Ann")["session"]
    for token in ["Ann", "is", "a", "town", "."]:
        wiki.ask(do="type", session=number, text=token)
    articles, past, future = wiki.all(), [], []
    for step in range(steps):
        request, article = drawn(draw, articles, (number, "Ann"))
        reply, after = wiki.ask(**request), wiki.all()
        expected = dict(articles)
        if request["do"] in ("undo", "redo"):
            source, other = (past, future) if request["do"] == "undo" else (future, past)
            if not source:
                assert reply == {"name": "Nothing", "refused": 10}, (seed, step, reply)
            else:
                article, sentences = source.pop()
                assert reply == {"article": article, "done": request["do"]}, (seed, step, reply)
                other.append((article, articles[article][1]))
                expected[article] = (articles[article][0] + 1, sentences)
            assert after == expected, (seed, step, request, articles, after, expected)
        elif "refused" in reply or request["do"] in ("words", "find"):
            assert after == expected, (seed, step, request, reply)
        elif request["do"] in CHANGES:
            past.append((article, articles[article][1]))
            del past[:-100], future[:]
        else:
            del past[:], future[:]
        articles = after
    wiki.process.stdin.close()
    assert wiki.process.wait(60) == 0
    return len(past) + len(future)


def hundred(program):
    """101 changes of which the first can't be taken back, and all others done again."""
    wiki = Pipe(program)
    wiki.ask(do="word", kind="noun", forms=["city"])
    wiki.ask(do="word", kind="name", forms=["Bern"])
    for _ in range(101):
        assert wiki.ask(do="add", article="Bern", text="Bern is a city.")["done"] == "add"
    for left in range(100, 0, -1):
        assert wiki.ask(do="undo") == {"article": "Bern", "done": "undo"}
        assert len(wiki.read("Bern")[1]) == left
    assert wiki.ask(do="undo") == {"name": "Nothing", "refused": 10}
    for _ in range(100):
        assert wiki.ask(do="redo") == {"article": "Bern", "done": "redo"}
    assert wiki.read("Bern") == (301, [("asserted", "Bern is a city.")] * 101)
    assert wiki.ask(do="redo") == {"name": "Nothing", "refused": 10}
    wiki.process.stdin.close()


def main(program, seed="1", runs="6"):
    hundred(program)
    for number in range(int(runs)):
        run(program, int(seed) + number, 220)


main(*sys.argv[1:])
