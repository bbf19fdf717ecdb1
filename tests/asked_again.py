"""asked_again.py PROGRAM [long]: a question that was answered is answered again without a search, and never by what it was.

A question whose answer needs a search of seconds, eight into seven places, is read twice: the second time takes a twentieth of the
first, in seconds of the processor, which other work on the machine doesn't change. A refused request lets it stay so. After each
change that is done the answers are the fresh ones: they are looked at by name behind an add, a removal, a retraction, a
reassertion, an edit and other forms, and random runs compare all that a wiki tells, after each change and twice, with what a
program tells that is started anew on the same changes.
"""
import itertools, json, os, random, subprocess, sys
from running import form_of

PLACES = 7
FORMS = {"noun": ["{0}", "{0}s"], "name": ["{0}"], "verb": ["{0}s", "{0}", "{0}ed"]}


class Asked:
    """A wiki behind a pipe, which is told one line and answers by one, and the changes that it did, as lines."""

    def __init__(self, program, *options):
        self.process = subprocess.Popen([program, "replay", *options], stdin=subprocess.PIPE, stdout=subprocess.PIPE)
        self.changes = []

    def ask(self, **request):
        line = json.dumps(request).encode() + b"\n"
        self.process.stdin.write(line)
        self.process.stdin.flush()
        reply = json.loads(self.process.stdout.readline())
        if reply.get("done") in ("word", "reword", "unword", "add", "edit", "remove", "retract", "reassert"):
            self.changes.append(line)
        return reply

    def done(self, **request):
        reply = self.ask(**request)
        if "done" not in reply:
            raise SystemExit(f"asked_again: {request} is answered by {reply}")
        return reply

    def word(self, kind, word):
        return self.done(do="word", kind=kind, forms=[form.format(word) for form in FORMS[kind]])

    def seconds(self):
        """How many seconds of the processor it has had."""
        with open(f"/proc/{self.process.pid}/stat") as it:
            fields = it.read().rsplit(")", 1)[1].split()
        return (int(fields[11]) + int(fields[12])) / os.sysconf("SC_CLK_TCK")

    def articles(self):
        return [self.ask(do="read", article=form_of(word)) for word in self.ask(do="words")["words"]]

    def end(self):
        self.process.stdin.close()
        if self.process.wait(60):
            raise SystemExit(f"asked_again: the program ended with {self.process.returncode}")


def timed(wiki, article):
    """The answers to an article's first question, and the seconds of the processor that reading it took."""
    begun = wiki.seconds()
    reply = wiki.done(do="read", article=article)
    return reply["sentences"][0]["answers"], wiki.seconds() - begun


def place(guest, room):
    return "p" + chr(97 + guest) + "h" + chr(97 + room)


def crowded(program):
    """A wiki in which nothing can be a crowd, since eight don't fit into seven places, and a question that needs that."""
    wiki = Asked(program)
    wiki.word("noun", "crowd")
    wiki.word("name", "Ada")
    for guest, room in itertools.product(range(PLACES + 1), range(PLACES)):
        wiki.word("noun", place(guest, room))
    for guest in range(PLACES + 1):
        kinds = " or ".join("is a " + place(guest, room) for room in range(PLACES))
        wiki.done(do="add", article="crowd", text=f"Every crowd {kinds}.")
    for room in range(PLACES):
        for one, other in itertools.combinations(range(PLACES + 1), 2):
            wiki.done(do="add", article="crowd", text=f"No {place(one, room)} is a {place(other, room)}.")
    wiki.done(do="add", article="Ada", text="Who is not a crowd?")
    return wiki


def costs_once(program):
    wiki = crowded(program)
    answers, first = timed(wiki, "Ada")
    again, second = timed(wiki, "Ada")
    refused = wiki.ask(do="remove", article="Ada", at=9)
    third = timed(wiki, "Ada")[1]
    if answers != ["Ada"] or again != answers or "refused" not in refused:
        raise SystemExit(f"asked_again: the answers are {answers} and {again}, and a refusal is {refused}")
    if max(second, third) > first / 20:
        raise SystemExit(f"asked_again: the first answer takes {first:.3f} s, and again {second:.3f} s, behind a refusal {third:.3f} s")
    wiki.word("name", "Bob")
    answers = timed(wiki, "Ada")[0]
    if answers != ["Ada", "Bob"]:
        raise SystemExit(f"asked_again: behind a new name the answers are {answers}")
    wiki.end()


def expect(wiki, answers, what):
    for _ in range(2):
        told = timed(wiki, "cat")[0]
        if told != answers:
            raise SystemExit(f"asked_again: {what} the answers are {told} and not {answers}")


def follows_changes(program):
    wiki = Asked(program)
    for kind, word in [("noun", "cat"), ("noun", "animal"), ("name", "Ada"), ("name", "Bob")]:
        wiki.word(kind, word)
    wiki.done(do="add", article="cat", text="Who is an animal?")
    expect(wiki, [], "at first")
    wiki.done(do="add", article="Ada", text="Ada is a cat.")
    wiki.done(do="add", article="animal", text="Every cat is an animal.")
    expect(wiki, ["Ada"], "behind an add")
    wiki.done(do="retract", article="animal", at=0)
    expect(wiki, [], "behind a retraction")
    wiki.done(do="reassert", article="animal", at=0)
    expect(wiki, ["Ada"], "behind a reassertion")
    wiki.done(do="edit", article="Ada", at=0, text="Bob is a cat.")
    expect(wiki, ["Bob"], "behind an edit")
    wiki.done(do="remove", article="Ada", at=0)
    expect(wiki, [], "behind a removal")
    wiki.done(do="add", article="animal", text="Everything is an animal.")
    expect(wiki, ["Ada", "Bob"], "behind a statement on everything")
    wiki.done(do="reword", word="Bob", forms=["Rob"])
    expect(wiki, ["Ada", "Rob"], "behind another form")
    wiki.done(do="unword", word="Ada")
    expect(wiki, ["Rob"], "behind a word that went")
    wiki.word("name", "Eve")
    expect(wiki, ["Rob", "Eve"], "behind a new name")
    wiki.done(do="edit", article="cat", at=0, text="Who is not an animal?")
    expect(wiki, [], "behind another question")
    wiki.end()


def sentence(draw, words):
    one, other, verb, name, another = (draw.choice(words[kind]) for kind in ("noun", "noun", "verb", "name", "name"))
    return draw.choice([
        f"{name} is a {one}.", f"{name} is a {one} or is a {other}.", f"{name} {verb}s {another}.", f"{name} is not a {one}.",
        f"Every {one} is a {other}.", f"No {one} is a {other}.", f"Every {one} {verb}s a {other}.", f"Every {one} {verb}s only {other}s.",
        f"Who is a {one}?", f"Who is not a {one}?", f"Who {verb}s a {one}?", f"Which {one}s {verb} {name}?", f"Who does not {verb} {name}?",
    ])


def request(draw, words):
    """A request that may be done or refused, and the word that it takes in, if it is done."""
    article, at = draw.choice(words["noun"] + words["name"]), draw.randrange(3)
    kind = draw.choice(["noun", "verb", "name"])
    old, new = draw.choice(words[kind]), "".join(draw.choice("bdfgklm") for _ in range(6))
    named = FORMS[kind][1 if kind == "verb" else 0].format(old)
    forms = [form.format(new) for form in FORMS[kind]]
    return draw.choices([
        (dict(do="add", article=article, text=sentence(draw, words)), None), (dict(do="edit", article=article, at=at, text=sentence(draw, words)), None),
        (dict(do="remove", article=article, at=at), None), (dict(do="retract", article=article, at=at), None), (dict(do="reassert", article=article, at=at), None),
        (dict(do="word", kind=kind, forms=forms), (kind, None, new)), (dict(do="reword", word=named, forms=forms), (kind, old, new)),
        (dict(do="unword", word=named), (kind, old, None)),
    ], [10, 3, 3, 3, 2, 1, 1, 1])[0]


def take_in(words, kind, old, new):
    if old is not None:
        words[kind].remove(old)
    if new is not None:
        words[kind].append(new)


def type_in(draw, wiki, words):
    """Types a sentence in a session and commits it; the change stands in the journal as an add."""
    article, text = draw.choice(words["noun"] + words["name"]), sentence(draw, words)
    session = wiki.done(do="open", article=article)["session"]
    for token in text[:-1].split() + [text[-1]]:
        if "refused" in wiki.ask(do="type", session=session, text=token):
            break
    if "done" in wiki.ask(do="commit", session=session):
        wiki.changes.append(json.dumps(dict(do="add", article=article, text=text)).encode() + b"\n")
    wiki.ask(do="drop", session=session)


def told_anew(program, changes, options):
    """What a program tells of all articles that is started on these changes."""
    wiki = Asked(program, *options)
    for line in changes:
        wiki.process.stdin.write(line)
    wiki.process.stdin.flush()
    for _ in changes:
        wiki.process.stdout.readline()
    told = wiki.articles()
    wiki.end()
    return told


def random_run(program, seed, steps, options):
    draw, wiki = random.Random(seed), Asked(program, *options)
    words = {"noun": ["cat", "dog", "man"], "verb": ["see", "like"], "name": ["Ada", "Bob", "Eve"]}
    for kind, of_kind in words.items():
        for word in of_kind:
            wiki.word(kind, word)
    for step in range(steps):
        before = len(wiki.changes)
        if draw.randrange(6):
            asked, word = request(draw, words)
            wiki.ask(**asked)
            if len(wiki.changes) > before and word:
                take_in(words, *word)
            if not all(words.values()):
                break
        else:
            type_in(draw, wiki, words)
        told = [wiki.articles() for _ in range(2)]
        fresh = told_anew(program, wiki.changes, options)
        if told != [fresh, fresh]:
            lines = b"".join(wiki.changes).decode()
            raise SystemExit(f"asked_again: seed {seed}, step {step}, options {options}: the wiki tells\n{told}\nand a fresh one\n{fresh}\nbehind\n{lines}")
    wiki.end()


def main(program, long):
    costs_once(program)
    follows_changes(program)
    for seed in range(60 if long else 4):
        random_run(program, seed, 40, [])
        random_run(program, seed, 40, ["--budget", "2"])


main(sys.argv[1], "long" in sys.argv[2:])
