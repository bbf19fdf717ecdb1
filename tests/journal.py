"""The journal keeps a wiki in one file, as docs/HTTP.md says.

journal.py PROGRAM: the program is killed after some requests over HTTP and started anew, and then the index, the page of each
article with its statuses, and the menus of new sessions are as before, and sessions are gone. Texts come with any number of
spaces, up to the longest that a form holds. A last line that was cut off is no change, and takes none with it that comes later.
"""
import json, os, random, signal, socket, sys, tempfile
from running import held_port, moments, started

PORT, HELD = held_port()
HEAD = "HTTP/1.1\r\nHost: here\r\n"
draw = random.Random(5)
folder = tempfile.TemporaryDirectory()
FILE = folder.name + "/wiki.jsonl"


def send(text):
    link = socket.create_connection(("127.0.0.1", PORT))
    link.sendall(text.encode())
    got = b""
    while part := link.recv(65536):
        got += part
    return got.decode()


def ask(**request):
    body = json.dumps(request)
    return json.loads(send(f"POST /api {HEAD}Content-Length: {len(body)}\r\n\r\n{body}").split("\r\n\r\n")[1])


def start():
    command = 'echo >>"$1"; exec "$2" serve "$3" <"$1" >>"$1"'
    wiki = started(["sh", "-c", command, "sh", FILE, sys.argv[1], f"127.0.0.1:{PORT}"])
    for _ in moments():
        try:
            socket.create_connection(("127.0.0.1", PORT)).close()
            return wiki
        except OSError:
            if wiki.poll() is not None:
                sys.exit(f"journal: the program ended with status {wiki.returncode}")
    sys.exit("journal: the program doesn't listen within 60 s")


def pages():
    """What each page shows, and what a new session on each article may begin with and go on with."""
    found = {path: send(f"GET {path} {HEAD}\r\n") for path in ["/"] + ["/article/" + word for word in nouns + names]}
    for word in nouns + names:
        session = ask(do="open", article=word)["session"]
        found[f"the menu on {word}"] = json.dumps(ask(do="menu", session=session))
        ask(do="type", session=session, text=names[0])
        found[f"the menu behind {names[0]} on {word}"] = json.dumps(ask(do="menu", session=session))
        ask(do="drop", session=session)
    return found


def post(path, text, more=""):
    """Sends a form whose text has spaces more in one of its gaps, up to the longest body that is taken."""
    body = f"{more}text={text.replace(' ', '+')}"
    room = 65536 - len(body)
    at = body.index("+", len(more))
    body = body[:at] + "+" * draw.choice([0, 1, draw.randrange(200), draw.randrange(room), room - draw.randrange(40), room]) + body[at:]
    status = send(f"POST {path} {HEAD}Content-Length: {len(body)}\r\n\r\n{body}").split(" ")[1]
    if status not in ("303", "404", "409"):
        sys.exit(f"journal: a form of {len(body)} bytes has status {status}, and not 303, 404 or 409")


def change():
    noun, other, name = draw.choice(nouns), draw.choice(nouns), draw.choice(names)
    text = draw.choice([f"{name} is a {noun}.", f"Every {noun} is a {other}.", f"No {noun} is a {other}.", f"Who is a {noun}?"])
    article, place = draw.choice(nouns + names), draw.randrange(4)
    if draw.randrange(3) == 0:
        return post(f"/article/{article}/add", text) if draw.randrange(2) else post(f"/article/{article}/edit", text, f"at={place}&")
    ask(**draw.choice([
        dict(do="add", article=article, text=text), dict(do="add", article=article, text=text),
        dict(do="edit", article=article, at=place, text=text), dict(do="remove", article=article, at=place),
        dict(do="retract", article=article, at=place), dict(do="reassert", article=article, at=place)]))


def commit(session, tokens):
    for token in tokens:
        ask(do="type", session=session, text=token)
    reply = ask(do="commit", session=session)
    if reply.get("done") != "commit":
        sys.exit(f"journal: commit of session {session} has the reply {reply}, and isn't done")


def anew(wiki, want, why):
    """Kills the program, starts it, and looks at all pages."""
    wiki.send_signal(signal.SIGKILL)
    wiki.wait()
    if why == "cut":
        os.truncate(FILE, os.path.getsize(FILE) - 3)
    wiki = start()
    for path, got in pages().items():
        if got != want[path]:
            sys.exit(f"journal: after a start on the journal ({why}) {path} is\n{got}\nand not\n{want[path]}")
    return wiki


nouns, names = ["cat", "dog", "fox"], ["Ada", "Bob"]
with open(FILE, "w") as file:
    file.writelines(json.dumps(dict(do="word", kind="noun", forms=[noun])) + "\n" for noun in nouns)
wiki = start()
for name in names:
    ask(do="word", kind="name", forms=[name])
for turn in range(3):
    for _ in range(draw.randrange(10, 40)):
        change()
    session = ask(do="open", article="Ada")["session"]
    commit(session, ["Ada", "is", "a", "cat", "."])
    wiki = anew(wiki, pages(), "whole")
    reply = ask(do="menu", session=session)
    if reply.get("name") != "NoSession":
        sys.exit(f"journal: session {session} was kept over a start: its menu is {reply}, and not a refusal NoSession")
before = pages()
ask(do="add", article="Bob", text="Bob is a fox.")
wiki = anew(wiki, before, "cut")
ask(do="add", article="Bob", text="Bob is a dog.")
wiki = anew(wiki, pages(), "after a cut")
wiki.kill()
