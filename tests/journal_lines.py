"""Each line of the journal is the accepted change, as another writer of JSON writes it, and asks for the same again.

journal_lines.py PROGRAM: random requests go to a wiki over HTTP, accepted and refused ones. Of each accepted change Python's `json`
writes the line that the journal should have, with the sentence as the article shows it. Then the former lines and the journal are
replayed: each line has the reply that the change had. Texts with every escape come back from `find` as Python writes them.
"""
import json, os, random, subprocess, sys
from running import Wiki

draw = random.Random(11)
MOST_LINE = 16040
FOLDER = os.path.dirname(os.path.dirname(os.path.abspath(__file__)))
ENGLISH = json.loads(subprocess.check_output([f"{FOLDER}/tools/grammar", f"{FOLDER}/grammars/english.codeco"]))["text"]
GRAMMARS = [ENGLISH, ENGLISH + "\n\t% \u00e9 \\ \"\n{mark} rp --> [which].", ENGLISH + " " * 20000, "text --> [a].", "text -->"]
LETTERS = "abcxyzABCÄßéλЖ中𐐀"
CHANGES = {"word", "reword", "unword", "grammar", "add", "edit", "remove", "retract", "reassert"}


def fail(words):
    sys.exit(f"journal_lines: {words}")


def line(value):
    return json.dumps(value, ensure_ascii=False, sort_keys=True, separators=(",", ":")).encode() + b"\n"


def replayed(lines):
    done = subprocess.run([sys.argv[1], "replay"], input=b"".join(lines), stdout=subprocess.PIPE, timeout=300)
    if done.returncode:
        fail(f"replay ended with status {done.returncode}")
    return done.stdout.split(b"\n")[:-1]


def form():
    """Letters of one to four bytes, up to the longest form, and sometimes beyond."""
    text = draw.choice(LETTERS)
    longest = draw.choice([4, 12, 63, 64, 66])
    while len((text + "𐐀").encode()) < longest and draw.randrange(40):
        text += draw.choice(LETTERS)
    return text


def word():
    kind = draw.choice(["name", "noun", "of", "verb", "adjective"])
    return dict(do="word", kind=kind, forms=[form() for _ in range({"noun": 2, "verb": 3}.get(kind, 1))])


def sentence():
    noun, other = (draw.choice(nouns) for _ in range(2))
    name = draw.choice(names)
    return draw.choice([
        f"{name} is a {noun}.", f"{name} is an {noun}.", f"Every {noun} is a {other}.", f"No {noun} is a {other}.", f"Who is a {noun}?",
        f"{name}   is   a {noun} .", f"{name} is", "", "\n", "\\u0041 \"is\" a\ttest."])


def place(**request):
    return dict(request, article=draw.choice(nouns + names + ["nobody"]), at=draw.randrange(5))


def change():
    kind = draw.randrange(12)
    if kind == 0:
        return word()
    if kind == 1:
        return dict(do="reword", word=draw.choice(names + nouns + extra), forms=[form()])
    if kind == 2:
        return dict(do="unword", word=draw.choice(extra + ["nobody"]))
    if kind < 7:
        request = place(do="add", text=sentence())
        if draw.randrange(2):
            del request["at"]
        return request
    if kind < 9:
        return place(do="edit", text=sentence())
    return place(do=draw.choice(["remove", "retract", "reassert"]))


def shown(request):
    """What shows the sentence that was added or put in place of another."""
    sentences = wiki.ask(do="read", article=request["article"])["sentences"]
    return sentences[request.get("at", len(sentences) - 1)]["text"]


nouns, names, extra = ["cat", "dog"], ["Ada"], ["zebra"]
former = [line(dict(do="word", kind="noun", forms=[noun])) for noun in nouns + extra]
former += [line(dict(do="word", kind="name", forms=[name])) for name in names]
wiki = Wiki(sys.argv[1], b"".join(former))
want, replies = [], []


def ask(request):
    reply = wiki.ask(**request)
    done = reply.get("done")
    if done in CHANGES:
        made = dict(request, text=shown(request)) if done in ("add", "edit") else request
        want.append(line(made))
        replies.append(line(reply)[:-1])
        if done == "word" and draw.randrange(2):
            {"name": names, "noun": nouns}.get(request["kind"], extra).append(request["forms"][0])
        if done == "reword":
            for known in (names, nouns, extra):
                known[:] = [request["forms"][0] if it == request["word"] else it for it in known]
        if done == "unword":
            extra[:] = [it for it in extra if it != request["word"]] or ["zebra"]
    return reply


for turn in range(700):
    ask(change())
    if turn % 100 == 50:
        ask(dict(do="grammar", text=draw.choice(GRAMMARS)))
    if turn % 40 == 0:
        session = wiki.ask(do="open", article="Ada")["session"] if "Ada" in names else None
        if session is not None:
            wiki.ask(do="type", session=session, text="Ada is a cat." if "cat" in nouns else "Ada is Ada.")
            reply = wiki.ask(do="commit", session=session)
            if reply.get("done") == "commit":
                article = reply["article"]
                text = wiki.ask(do="read", article=article)["sentences"][-1]["text"]
                want.append(line(dict(do="add", article=article, text=text)))
                replies.append(line({**{key: value for key, value in reply.items() if key != "article"}, "done": "add"})[:-1])

got = wiki.kill()
lines = [it + b"\n" for it in got.split(b"\n")[:-1]]
if not got.endswith(b"\n"):
    fail("the journal's last line has no newline")
for number, (one, other) in enumerate(zip(lines, want)):
    if one != other:
        fail(f"line {number + 1} is\n{one.decode(errors='replace')}and not\n{other.decode()}")
    if len(one) > MOST_LINE and json.loads(one)["do"] != "grammar":
        fail(f"line {number + 1} has {len(one)} bytes, and not at most {MOST_LINE}")
if len(lines) != len(want) or len(want) < 100:
    fail(f"the journal has {len(lines)} lines, of {len(want)} accepted changes (at least 100)")
again = replayed(former + lines)[len(former):]
for number, (one, other) in enumerate(zip(again, replies)):
    if one != other:
        fail(f"line {number + 1} of the journal\n{lines[number].decode()}has the reply\n{one.decode()}\nand not\n{other.decode()}")

texts = [chr(n) * 3 for n in [*range(128), 0x80, 0x7FF, 0x800, 0xD7FF, 0xE000, 0xFFFF, 0x10000, 0x10FFFF]]
texts += ["".join(chr(draw.choice([draw.randrange(128), draw.randrange(0xD800), draw.randrange(0x10000, 0x110000)])) for _ in range(draw.randrange(60)))
          for _ in range(300)]
asked = [line(dict(do="find", word=text)) if draw.randrange(2) else json.dumps(dict(do="find", word=text)).encode() + b"\n" for text in texts]
for text, reply in zip(texts, replayed(asked)):
    told = line(dict(name="NoWord", refused=json.loads(reply)["refused"], text=text))[:-1]
    if reply != told:
        fail(f"find of {text!r} has the reply\n{reply.decode(errors='replace')}\nand not\n{told.decode()}")
