"""What the tests of the editor page stand on: a wiki with what lies between it and the browser, and what a person does on the page."""
import json, os, socket, socketserver, subprocess, sys, threading, urllib.parse

from running import Wiki, ended
from webdriver import Failed

HERE = os.path.dirname(os.path.realpath(__file__))
WORDS = [("name", "Bern"), ("name", "Aare"), ("name", "Basel"), ("noun", "city"), ("noun", "river"), ("noun", "place"), ("verb", "cross"),
         ("of", "part"), ("adjective", "located-in")]
TEXTS = [("city", "Every city is a place."), ("river", "No river is a city."), ("Bern", "Bern is a city."), ("Aare", "Aare is a river."),
         ("Aare", "Aare crosses Bern."), ("Aare", "Aare is a city."), ("Bern", "What crosses Bern?"), ("Basel", "A river crosses a city.")]


def lines(words=WORDS, texts=TEXTS):
    told = [{"do": "word", "kind": kind, "forms": [form]} for kind, form in words]
    told += [{"do": "add", "article": article, "text": text} for article, text in texts]
    return b"".join(json.dumps(it).encode() + b"\n" for it in told)


class Between(socketserver.ThreadingTCPServer):
    """Stands before the wiki. `meddle` gets each request of /api, and may wait, or give a response of its own."""

    allow_reuse_address = daemon_threads = True
    request_queue_size = 128

    def __init__(self, wiki):
        super().__init__(("127.0.0.1", 0), Passing)
        self.wiki, self.meddle, self.seen, self.posts = wiki, None, [], []
        threading.Thread(target=self.serve_forever, daemon=True).start()

    def handle_error(self, request, client_address):
        """A browser that goes away is no fault."""

    def seen_of(self, name):
        return [it for it in self.seen if it["do"] == name]

    def before(self, name, change):
        """Makes a change of somebody else's when the next request of this name has come, before it is answered."""
        done = []

        def meddle(request):
            if request["do"] == name and not done:
                done.append(change())

        self.meddle = meddle


class Passing(socketserver.StreamRequestHandler):
    disable_nagle_algorithm = True

    def handle(self):
        head = b""
        while not head.endswith(b"\r\n\r\n"):
            line = self.rfile.readline()
            if not line:
                return
            head += line
        fields = {key.lower(): value.strip() for key, value in (line.split(b":", 1) for line in head.split(b"\r\n")[1:] if b":" in line)}
        sent = self.rfile.read(int(fields.get(b"content-length", b"0")))
        answer = None
        if head.startswith(b"POST /api"):
            request = json.loads(sent)
            self.server.seen.append(request)
            if not sent.startswith(b'{"do":"' + request["do"].encode() + b'"'):
                raise SystemExit(f"client: a body that doesn't begin with its name: {sent!r}")
            answer = self.server.meddle(request) if self.server.meddle else None
        if answer is None:
            answer = self.passed(head + sent)
        if head.startswith(b"POST "):
            self.server.posts.append((head.split(b" ")[1].decode(), fields.get(b"origin", b"").decode(), answer[9:12].decode()))
        self.wfile.write(answer)

    def passed(self, data):
        got = b""
        with self.server.wiki.connect() as link:
            link.setsockopt(socket.IPPROTO_TCP, socket.TCP_NODELAY, 1)
            link.sendall(data)
            while part := link.recv(65536):
                got += part
        return got


def response(status, body, kind="text/html"):
    data = body.encode()
    return f"HTTP/1.1 {status} Some phrase\r\nContent-Type: {kind}\r\nContent-Length: {len(data)}\r\nConnection: close\r\n\r\n".encode() + data


def reply(done, **members):
    """A response as the wiki gives it."""
    return response(200, json.dumps({"done": done, **members}), "application/json")


class Place:
    """A wiki, and the address of its editor page: the program's own, or else that of tools/client, which is taken in any case where
    CLIENT_TRY is set. Before the program stands what meddles, but where the way shall be straight."""

    def __init__(self, given=None, options=(), is_straight=False):
        self.wiki = Wiki(sys.argv[1], lines() if given is None else given, errors=subprocess.DEVNULL, options=options)
        self.given, self.options, self.front = given, options, None
        self.between = Between(self.wiki)
        port = self.wiki.port if is_straight else self.between.server_address[1]
        self.address = f"http://127.0.0.1:{port}/editor/index.html"
        if not self.is_served():
            words = [os.path.join(HERE, "..", "tools", "client"), "--try", f"127.0.0.1:{port}", "127.0.0.1:0"]
            self.front = subprocess.Popen(words, stdout=subprocess.PIPE, text=True)
            self.address = self.front.stdout.readline().strip()
        self.site = self.address[:-len("/editor/index.html")]

    def is_served(self):
        """Whether the program has the editor page itself."""
        return "CLIENT_TRY" not in os.environ and self.wiki.page("/editor/index.html")[0] == 200

    def ask(self, **request):
        return self.wiki.ask(**request)

    def texts(self, article):
        return [it["text"] for it in self.ask(do="read", article=article)["sentences"]]

    def restart(self):
        """Starts the program again, from what it was given and what it wrote."""
        fresh = Wiki(sys.argv[1], ended(lines() if self.given is None else self.given) + self.wiki.written(), errors=subprocess.DEVNULL, options=self.options)
        self.wiki = self.between.wiki = fresh

    def stop(self):
        if self.front:
            self.front.terminate()
            self.front.wait()
        self.between.shutdown()
        self.between.server_close()
        self.wiki.stop()


class Page:
    """What a person does on the editor page."""

    def __init__(self, browser, place):
        self.browser, self.place = browser, place

    def open(self, where=""):
        """Loads the page anew, at what stands behind the # of its address."""
        self.browser.go("about:blank")
        self.browser.go(self.place.address + where)

    def words(self):
        self.open()
        self.browser.until(lambda: self.browser.texts(".kind li"), "words")

    def article(self, word, sentences):
        self.browser.go(self.place.address + "#/article/" + urllib.parse.quote(word))
        self.has(sentences)

    def again(self, article):
        """Loads an article anew, as it is by now."""
        self.open()
        self.article(article, self.place.texts(article))

    def has(self, sentences):
        self.browser.until(lambda: self.sentences() == sentences, f"the sentences {sentences}, but {self.sentences()}")

    def sentences(self):
        return self.browser.texts(".sentence .text")

    def statuses(self):
        return self.browser.texts(".sentence .status")

    def notice(self, *parts):
        """Waits for a message that has one of these parts."""
        def told():
            shown = " ".join(self.browser.texts("#notices, .news, .extra, .note"))
            return any(part in shown for part in parts)

        self.browser.until(told, f"a message with {parts!r}")

    def quiet(self):
        """Closes all messages."""
        self.browser.script("document.querySelectorAll('#notices .close, .news .close').forEach((it) => it.click())")

    def actions(self, at):
        """Opens what can be done with a sentence."""
        self.browser.script("document.querySelectorAll('.sentence .more')[arguments[0]].focus()", at)
        if self.browser.script("return document.activeElement.getAttribute('aria-expanded')") == "false":
            self.browser.keys("Enter")

    def act(self, at, name):
        self.actions(at)
        self.browser.button(name, f".sentence:nth-child({at + 1})")

    def editor(self):
        self.browser.button("Write a sentence")
        self.settled()

    def settled(self):
        """Waits until the menu is that of what is typed."""
        self.browser.until(lambda: self.browser.find('.editor[aria-busy="false"]'), "a menu")

    def typed(self):
        return (self.browser.texts(".typed-text")[0] + "|" + self.browser.script("return document.querySelector('.next').value")).strip()

    def type(self, *keys):
        self.browser.keys(*keys)
        self.settled()

    def paste(self, text):
        """Pastes a text, which is cut from another field."""
        self.browser.script("const it = document.querySelector('#open-word'); it.value = arguments[0]; it.select()", text)
        self.browser.chord("Control", "x")
        self.browser.script("document.querySelector('.next').focus()")
        self.browser.chord("Control", "v")
        self.settled()

    def options(self, group):
        return self.browser.texts(f".group:nth-child({group}) [role=option]")

    def marked(self):
        return self.browser.texts(".menu [aria-selected=true]")

    def focused(self):
        return self.browser.script("const it = document.activeElement; return it.id || it.innerText || it.getAttribute('aria-label') || it.tagName")

    def to(self, label, times=1):
        """Presses Tab until what has the focus has this text, so many times."""
        for _ in range(150):
            self.browser.keys("Tab")
            shown = self.browser.script("""const it = document.activeElement; const label = it.labels && it.labels[0];
                return it === document.body ? '' : (label ? label.innerText : it.getAttribute('aria-label') || it.innerText).trim()""")
            if label in shown.split("\n"):
                times -= 1
                if times == 0:
                    return
        raise Failed(f"Tab doesn't come to {label}")

    def drawn(self):
        self.browser.until(lambda: self.browser.find("svg .isa") and not self.browser.find("progress"), "the drawing", 90)
