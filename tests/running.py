"""What the scripts that run the program share: a wiki that serves on a port of its own, what is sent to it, and its pages."""
import atexit, html.parser, json, os, random, re, signal, socket, struct, subprocess, tempfile, time, urllib.parse

BAD_REQUEST = {"name": "BadRequest", "refused": 0}
STARTED = []


class Closed(Exception):
    """The connection ended before the whole response had come."""


def started(words, **more):
    """A process that doesn't outlive the script."""
    STARTED.append(subprocess.Popen(words, **more))
    return STARTED[-1]


@atexit.register
def end_all():
    for process in STARTED:
        if process.poll() is None:
            process.kill()


def held_port():
    """A port that nobody has, and the socket that is bound to it. While that one is open and doesn't listen, the program can listen
    there and no other script takes the port. It is below those that the system gives to clients, which could else meet themselves."""
    while True:
        port, held = random.randrange(20000, 32000), socket.socket()
        try:
            held.bind(("127.0.0.1", port))
            held.setsockopt(socket.SOL_SOCKET, socket.SO_REUSEADDR, 1)
            return port, held
        except OSError:
            held.close()


def moments(seconds=60):
    """Moments within so many seconds, in which to look again whether something has come. A busy machine may need all of them."""
    until = time.time() + seconds
    while time.time() < until:
        yield
        time.sleep(0.01)


class Wiki:
    """A program that serves, from these lines on. Its journal goes to a file, or to what is given as `output`."""

    def __init__(self, program, given=b"", output=None, options=(), environment=None, waits=True, errors=subprocess.PIPE):
        self.port, self.held = held_port()
        self.journal = tempfile.TemporaryFile() if output is None else output
        with tempfile.TemporaryFile() as lines:
            lines.write(given)
            lines.seek(0)
            words = [program, "serve", f"127.0.0.1:{self.port}", *options]
            self.process = started(words, stdin=lines, stdout=self.journal, stderr=errors, env=environment)
        if waits:
            self.wait()

    def wait(self, seconds=60):
        """Waits until it listens."""
        for _ in moments(seconds):
            try:
                self.connect().close()
                return
            except OSError:
                if self.process.poll() is not None:
                    raise SystemExit(f"the program ended with {self.process.returncode}: {self.process.stderr.read()!r}")
        raise SystemExit(f"the program doesn't listen within {seconds} s")

    def connect(self, source="127.0.0.1", timeout=30):
        return socket.create_connection(("127.0.0.1", self.port), timeout, (source, 0))

    def send(self, data, timeout=30):
        """Sends one request, and returns its response whole."""
        with self.connect(timeout=timeout) as link:
            link.sendall(data)
            return read_response(link)

    def ask(self, **request):
        """The reply to a request, as an object."""
        return json.loads(self.send(api(request))[2])

    def page(self, path):
        return self.send(f"GET {path} HTTP/1.1\r\nHost: here\r\n\r\n".encode())

    def ended(self, what, seconds=60):
        """The status with which it ends; the script ends where it doesn't."""
        try:
            return self.process.wait(seconds)
        except subprocess.TimeoutExpired:
            raise SystemExit(f"{what}: the program hasn't ended after {seconds} s")

    def kill(self):
        """Kills it, and returns what it had written to its journal."""
        os.kill(self.process.pid, signal.SIGKILL)
        self.process.wait()
        return self.written()

    def written(self):
        self.journal.seek(0)
        return self.journal.read()

    def stop(self):
        if self.process.poll() is None:
            self.process.kill()
            self.process.wait()

    def memory(self):
        """How many bytes of memory it holds."""
        with open(f"/proc/{self.process.pid}/statm") as it:
            return int(it.read().split()[1]) * os.sysconf("SC_PAGE_SIZE")


def reset(link):
    """Closes a connection so that the other side finds it reset."""
    link.setsockopt(socket.SOL_SOCKET, socket.SO_LINGER, struct.pack("ii", 1, 0))
    link.close()


def api(request):
    body = json.dumps(request).encode()
    return b"POST /api HTTP/1.1\r\nHost: here\r\nContent-Length: %d\r\n\r\n%s" % (len(body), body)


def read_all(link):
    got = b""
    while part := link.recv(65536):
        got += part
    return got


def read_response(link):
    return parse_response(read_all(link))


def parse_response(got):
    """The status, the fields and the body of a response that came whole."""
    head, found, body = got.partition(b"\r\n\r\n")
    lines = head.decode("latin-1").split("\r\n")
    match = re.fullmatch(r"HTTP/1\.1 (\d{3}) [A-Z][A-Za-z -]*", lines[0])
    fields = dict(line.split(": ", 1) for line in lines[1:] if ": " in line)
    if not found or match is None or int(fields.get("Content-Length", -1)) != len(body):
        raise Closed(got)
    if fields.get("Connection") != "close" or len(fields) != len(lines) - 1:
        raise SystemExit(f"a response with other fields: {got[:300]!r}")
    return int(match[1]), fields, body


def ended(lines):
    """These lines, ended by a newline, so that what comes behind them is a line of its own."""
    return lines if lines.endswith(b"\n") or not lines else lines + b"\n"


def replayed(program, lines):
    """The replies of `replay` to these lines."""
    with tempfile.TemporaryFile() as given:
        given.write(lines)
        given.seek(0)
        ran = subprocess.run([program, "replay"], stdin=given, capture_output=True)
    if ran.returncode:
        raise SystemExit(f"replay ended with {ran.returncode}")
    return [json.loads(line) for line in ran.stdout.splitlines()]


def form_of(word):
    """The form by which a word is named."""
    return word["forms"][1 if word["kind"] == "verb" else 0]


class Page(html.parser.HTMLParser):
    """The list items of a page: the class of each, its text, and what of it is italic and underlined."""

    def __init__(self, text):
        super().__init__()
        self.items, self.inside = [], None
        self.feed(text)

    def handle_starttag(self, tag, attrs):
        if tag == "li":
            self.items.append([dict(attrs).get("class"), "", "", ""])
            self.inside = 1
        elif self.items and tag in ("i", "u"):
            self.inside = 2 if tag == "i" else 3

    def handle_endtag(self, tag):
        if tag in ("i", "u"):
            self.inside = 1
        elif tag == "li":
            self.inside = None

    def handle_data(self, text):
        if self.inside:
            self.items[-1][self.inside] += text


def told_pages(program, lines):
    """What the pages of a wiki should show after these lines, by `replay` and a `read` of each article."""
    words = replayed(program, ended(lines) + b'{"do":"words"}\n')[-1]["words"]
    forms = [form_of(word) for word in words]
    reads = b"".join(json.dumps({"do": "read", "article": form}).encode() + b"\n" for form in forms)
    told = replayed(program, ended(lines) + reads)[-len(forms):] if forms else []
    pages = {"/": [[None, f"{form} ({word['kind']})", "", ""] for form, word in zip(forms, words)]}
    for form, reply in zip(forms, told):
        pages["/article/" + urllib.parse.quote_plus(form, safe="*-._")] = [sentence_item(it) for it in reply["sentences"]]
    return pages


def sentence_item(it):
    answers, unknown = ", ".join(it.get("answers", [])), ", ".join(it.get("unknown", []))
    text = it["text"] + (" " if "answers" in it else "") + (" " if unknown else "")
    return [it["status"], text, answers, unknown]


def shown_pages(wiki, paths):
    shown = {}
    for path in paths:
        status, _, body = wiki.page(path)
        shown[path] = Page(body.decode()).items if status == 200 else status
    return shown


def compare_pages(program, wiki, lines, what):
    """Ends the script where a page shows something else than what the lines come to."""
    told = told_pages(program, lines)
    shown = shown_pages(wiki, told)
    for path, items in told.items():
        if shown[path] != items:
            raise SystemExit(f"{what}: {path} shows {shown[path]} and not {items}")
