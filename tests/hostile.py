"""Hostile bytes: random, truncated, oversized and mixed requests and lines, with a checker of answers written from the documents.

hostile.py PROGRAM [long]: each connection is answered as docs/HTTP.md says; of bytes that are no head by the strict grammar
below 400, 413 or waiting is allowed. Each line to `replay` has one reply: `BadRequest` exactly where it is no request by
docs/PROTOCOL.md, and else what was asked or a refusal. The program goes on serving, and once words and sentences are at their
limits its memory doesn't grow.
"""
import collections, json, multiprocessing, os, random, re, socket, subprocess, sys, tempfile, time
from running import BAD_REQUEST, Closed, Wiki, parse_response, read_all, reset

WAIT = 0
U32 = 4294967295

# ---- the checker of connections: which statuses may come for these bytes, or WAIT

# In each pattern a byte can belong to one part alone, so that a match takes no longer than its text.
TOKEN = rb"[!#$%&'*+.^_`|~0-9A-Za-z-]+"
HEAD = re.compile(rb"(?:\r?\n)*(" + TOKEN + rb") ([!-~]+) HTTP/1\.([01])\r?\n((?:" + TOKEN + rb":[ -~\x80-\xff\t]*\r?\n)*)\r?\n")
FIELD = re.compile(rb"(" + TOKEN + rb"):([ -~\x80-\xff\t]*)\r?\n")
# So many lines make too many fields, whatever follows.
TOO_MANY = re.compile(TOKEN + rb" [!-~]+ HTTP/1\.[01]\r\n(?:" + TOKEN + rb":[ -~\t]*\r\n){65}")
ROUTES = [
    (rb"/", b"GET", {200}), (rb"/word", b"POST", {303, 409}), (rb"/api", b"POST", {200, 404, 409}),
    (rb"/article/[^/]+", b"GET", {200, 404}), (rb"/session/[^/]+", b"GET", {200, 404}),
    (rb"/article/[^/]+/(?:add|edit|remove|retract|reassert)", b"POST", {303, 404, 409}),
    (rb"/editor", b"GET", {303}), (rb"/editor/[^/]+", b"GET", {200}),
    (rb"/article/[^/]+/open", b"POST", {303, 404, 409}), (rb"/session/[^/]+/(?:type|back|commit|refresh|drop)", b"POST", {303, 404, 409}),
]
# The files of the editor page.
FILES = {name.encode() for name in os.listdir(os.path.join(os.path.dirname(os.path.realpath(__file__)), "..", "client"))
         if re.fullmatch(r"[a-z]+\.(?:html|css|js)", name)}
NEEDS = {b"word": [b"kind", b"forms"], b"add": [b"text"], b"edit": [b"at", b"text"], b"remove": [b"at"], b"retract": [b"at"],
         b"reassert": [b"at"], b"type": [b"token"]}


def expected(data):
    """The statuses that may answer these bytes where they are all that comes; WAIT among them where more may be waited for."""
    if TOO_MANY.match(data[:16384]):
        return {400}
    head = HEAD.match(data)
    if head is None or head.end() > 16384:
        strict = re.fullmatch(rb"(?:" + TOKEN + rb"(?: (?:[!-~]+(?: (?:H(?:T(?:T(?:P(?:/(?:1(?:\.(?:[01]\r?)?)?)?)?)?)?)?)?)?)?)?)?", data)
        if strict is not None or is_front_of_fields(data):
            return {413} if len(data) >= 16384 else {WAIT}
        return {400, 413, WAIT}
    return after_head(head, data[head.end():])


def is_front_of_fields(data):
    """A request line and whole fields, of which the last may be cut: the head goes on."""
    line, found, rest = data.partition(b"\r\n")
    if not found or re.fullmatch(TOKEN + rb" [!-~]+ HTTP/1\.[01]", line) is None or len(data) > 16384:
        return False
    *whole, last = rest.split(b"\r\n")
    fields = all(re.fullmatch(TOKEN + rb":[ -~\t]*", it) for it in whole)
    return fields and len(whole) < 64 and re.fullmatch(rb"(?:" + TOKEN + rb"(?::[ -~\t]*\r?)?)?", last) is not None


def after_head(head, body):
    method, target, version, lines = head[1], head[2], head[3], head[4]
    fields = [(name.lower(), value.strip(b" \t")) for name, value in FIELD.findall(lines)]
    if len(fields) > 64:
        return {400}
    if any(name == b"transfer-encoding" for name, _ in fields):
        return {501}
    hosts = [value for name, value in fields if name == b"host"]
    if len(hosts) > 1 or (not hosts and version == b"1"):
        return {400}
    origins = [value.lower() for name, value in fields if name == b"origin"]
    own = [scheme + host.lower() for host in hosts for scheme in (b"http://", b"https://")]
    if method == b"POST" and origins and not (len(origins) == 1 and origins[0] in own):
        return {403}
    lengths = [value for name, value in fields if name == b"content-length"]
    if not all(re.fullmatch(rb"[0-9]{1,19}", it) for it in lengths) or len({int(it) for it in lengths}) > 1:
        return {400}
    length = int(lengths[0]) if lengths else 0
    if length > 65536:
        return {413}
    path = target.partition(b"?")[0]
    found = [(wanted, done) for route, wanted, done in ROUTES if re.fullmatch(route, path)]
    if not found:
        return {404}
    if found[0][0] != method:
        return {405}
    segments = path.split(b"/")
    if segments[1] == b"session" and not is_number(decoded(segments[2])):
        return {400}
    if segments[1] == b"editor" and len(segments) > 2 and decoded(segments[2]) not in FILES:
        return {404}
    if len(body) < length:
        return {WAIT}
    return after_body(segments, body[:length], found[0][1])


def after_body(segments, body, done):
    if segments[1] == b"api":
        request = None if len(body) > 65535 else request_in(body)
        return {400} if request is None else done
    form = {}
    for pair in body.split(b"&"):
        name, _, value = pair.partition(b"=")
        form.setdefault(decoded(name), decoded(value))
    needs = NEEDS.get(segments[-1], []) if segments[1] in (b"word",) or len(segments) > 3 else []
    if any(name not in form for name in needs):
        return {400}
    if b"at" in needs and not is_number(form[b"at"]):
        return {400}
    if b"kind" in needs and form[b"kind"] not in (b"name", b"noun", b"of", b"verb", b"adjective"):
        return {400}
    return done


def decoded(text):
    return re.sub(rb"%([0-9A-Fa-f]{2})", lambda it: bytes([int(it[1], 16)]), text.replace(b"+", b" "))


def is_number(text):
    return re.fullmatch(rb"[0-9]{1,10}", text) is not None and int(text) <= U32


# ---- the checker of lines

TEXT, NUMBER, MAYBE, TEXTS, KIND = range(5)
REQUESTS = {
    "word": {"kind": KIND, "forms": TEXTS}, "reword": {"word": TEXT, "forms": TEXTS}, "unword": {"word": TEXT},
    "find": {"word": TEXT}, "words": {}, "parse": {"text": TEXT}, "grammar": {"text": TEXT}, "add": {"article": TEXT, "at": MAYBE, "text": TEXT},
    "edit": {"article": TEXT, "at": NUMBER, "text": TEXT}, "remove": {"article": TEXT, "at": NUMBER},
    "retract": {"article": TEXT, "at": NUMBER}, "reassert": {"article": TEXT, "at": NUMBER}, "read": {"article": TEXT},
    "axioms": {"article": TEXT, "at": NUMBER}, "open": {"article": TEXT}, "type": {"session": NUMBER, "text": TEXT},
    "back": {"session": NUMBER}, "menu": {"session": NUMBER}, "commit": {"session": NUMBER}, "refresh": {"session": NUMBER},
    "drop": {"session": NUMBER}}


class NoJson(ValueError):
    pass


def refuse(text):
    raise NoJson(text)


def whole(text):
    # A sign makes a number that isn't whole here.
    return float(text) if text.startswith("-") else int(text)


def decimal(text):
    number = float(text)
    return refuse(text) if number in (float("inf"), float("-inf")) else number


def request_in(line):
    """The request of a line, or None where it is none."""
    try:
        text = line.decode()
        if depth(text) > 127 or text.startswith("\ufeff"):
            return None
        value = json.loads(text, parse_int=whole, parse_float=decimal, parse_constant=refuse)
        json.dumps(value, ensure_ascii=False).encode()
    except (ValueError, RecursionError):
        return None
    members = REQUESTS.get(value.get("do")) if isinstance(value, dict) and isinstance(value.get("do"), str) else None
    if members is None or not all(fits(kind, value, name) for name, kind in members.items()):
        return None
    return value["do"]


def depth(text):
    """The greatest nesting of arrays and objects outside of texts."""
    now = most = 0
    for mark in re.sub(r'"(?:[^"\\]|\\.)*"', "", text):
        now += (mark in "[{") - (mark in "]}")
        most = max(most, now)
    return most


def fits(kind, value, name):
    if kind == MAYBE:
        return name not in value or fits(NUMBER, value, name)
    it = value.get(name)
    if kind == NUMBER:
        return type(it) is int and it <= U32
    if kind == TEXTS:
        return isinstance(it, list) and all(isinstance(one, str) for one in it)
    return isinstance(it, str) and (kind != KIND or it in ("name", "noun", "of", "verb", "adjective"))


# ---- what is sent

WORDS = ["cat", "dog", "Ada", "Bob", "see", "no", "every", "is", "a", "Is", "fish", "<b>", "\u00e9lan", "a b", "-", "x" * 70]


def some_request(draw):
    """A request as an object; its members may be of wrong kinds or missing."""
    do = draw.choice([*REQUESTS, "fly"])
    request = {"do": do}
    for name, kind in REQUESTS.get(do, {}).items():
        if kind in (NUMBER, MAYBE):
            request[name] = draw.choice([0, 0, 1, 2, 3, U32, U32 + 1, -1, 1.5, "0", None])
        elif kind == TEXTS:
            request[name] = draw.choice([[], ["cat"], [draw.choice(WORDS)], [draw.choice(WORDS), draw.choice(WORDS)], "cat", [1]])
        elif kind == KIND:
            request[name] = draw.choice(["noun", "name", "verb", "pronoun", 7])
        else:
            request[name] = draw.choice([draw.choice(WORDS), sentence(draw), sentence(draw), None])
    if draw.randrange(8) == 0 and len(request) > 1:
        del request[draw.choice(list(request))]
    return request


def sentence(draw):
    return draw.choice(["Ada is a cat.", "No cat is a dog.", "Who is a cat?", "Every dog sees a cat.", "Ada sees every.", ". . .",
                        " ".join(draw.choice(WORDS) for _ in range(draw.randrange(draw.choice([6, 6, 6, 6, 60])))), "Every cat"])


def random_bytes(draw, count):
    return draw.getrandbits(8 * count).to_bytes(count, "little") if count else b""


def some_line(draw):
    kind = draw.randrange(10)
    if kind < 5:
        return json.dumps(some_request(draw)).encode()
    if kind == 5:
        return random_bytes(draw, draw.randrange(80)).replace(b"\n", b" ")
    line = bytearray(json.dumps(some_request(draw), ensure_ascii=False).encode())
    if kind == 6:
        return bytes(line[:draw.randrange(len(line))])
    if kind == 7:
        line[draw.randrange(len(line))] = draw.choice(b"{}[]\",:\\0-e. \x00\xff")
        return bytes(line)
    if kind == 8:
        return draw.choice([b"", b"\r", b"null", b"[" * 128 + b"]" * 128, b'{"do":"words","x":' + b"[" * 126 + b"]" * 126 + b"}",
                            b'{"do":"words","x":' + b"[" * 127 + b"]" * 127 + b"}", b'{"do":"words","x":1e999}', b'{"do":"find","word":"\\ud800"}',
                            b'{"do":"fly","do":"words"}', b' {"do" : "words"}\r', b'{"do":"words"}{}', b'\xef\xbb\xbf{"do":"words"}', b'{"do":"words","x":NaN}'])
    if draw.randrange(40):
        return bytes(line)
    return bytes(line) + b" " * (65535 - len(line) + draw.randrange(-1, 3))


FORMS = [
    ("/word", ["kind=noun&forms=cat", "kind=name&forms=Ada", "kind=verb&forms=see", "kind=noun", "forms=cat", "kind=pet&forms=cat", "kind=noun&kind=x&forms=a+b"]),
    ("/article/cat/add", ["text=Ada+is+a+cat.", "text=Who+is+a+cat%3F", "text=", "txt=a", "text=%ff%00"]),
    ("/article/Ada/edit", ["at=0&text=Ada+is+a+dog.", "at=x&text=a", "at=4294967296&text=a", "text=a"]),
    ("/article/cat/remove", ["at=0", "at=00000000000", "at=", "", "a%74=0"]), ("/article/cat/retract", ["at=0", "at=9"]),
    ("/article/dog/reassert", ["at=0", "at=-1"]), ("/article/cat/open", [""]), ("/article/x%2fy/open", [""]),
    ("/session/1/type", ["token=no", "token=cat", "tok=en"]), ("/session/1/back", [""]), ("/session/2/commit", [""]),
    ("/editor", [""]), ("/editor/app.js", ["", "text=a"]), ("/editor/none", [""]),
    ("/session/1/refresh", [""]), ("/session/1/drop", [""]), ("/session/x/drop", [""]), ("/session/4294967296/back", [""]), ("/none", [""])]


def some_http(draw):
    """A request that is whole, with its parts drawn from right and wrong ones."""
    kind = draw.randrange(4)
    if kind == 0:
        method, path, body = "GET", draw.choice(["/", "/?a=b", "/article/cat", "/article/%63at", "/article/b%c3%a9", "/article/", "/session/1", "/session/a", "/none", "//",
                                           "/article/Ada", "/article/dog", "/article/%c3%a9", "/article/cat/", "/session/2", "/session/00000000001", "/article",
                                           "/session/4294967295", "/session/99999999999", "/editor", "/editor?x", "/editor/", "/editor/../", "/editor/%2e%2e", "/editor/..",
                                           "/editor/index.html", "/editor/index%2Ehtml", "/editor/Index.html", "/editor/app.js?x", "/editor/app.js/", "/api/", "/word/", "*", "/article/a%2"]), b""
    elif kind == 1:
        method, path, body = "POST", "/api", some_line(draw).replace(b"\xff", b"\xfe")
    else:
        path, bodies = draw.choice(FORMS)
        method, body = "POST", draw.choice(bodies).encode()
    if draw.randrange(12) == 0:
        method = draw.choice(["GET", "POST", "PUT", "get"])
    fields = ["Host: here"]
    if body or draw.randrange(2):
        fields.append(f"Content-Length: {len(body)}")
    odd = draw.randrange(24)
    if odd == 0:
        fields.append(draw.choice(["Transfer-Encoding: chunked", "transfer-encoding:"]))
    elif odd == 1:
        fields = fields[1:]
    elif odd == 2:
        fields.append("hOST: there")
    elif odd == 3:
        fields.append(draw.choice(["Origin: http://here", "origin: HTTPS://HERE", "Origin: http://there", "Origin: null", "Content-Length: 7", f"Content-Length: 0{len(body)}", "Content-Length: x", "Content-Length: 65537", "Content-Length: " + "9" * 20, "Content-Length:"]))
    elif odd == 4:
        fields += [f"X-{n}: {n}" for n in range(draw.choice([60, 61, 62, 63, 64, 65, 200]))]
    elif odd == 5:
        fields.append("X: " + "y" * draw.choice([1000, 16000, 16384, 20000]))
    draw.shuffle(fields)
    version = draw.choice(["1.1"] * 9 + ["1.0"])
    return f"{method} {path} HTTP/{version}\r\n".encode() + "".join(it + "\r\n" for it in fields).encode() + b"\r\n" + body


def some_bytes(draw):
    """What one connection sends."""
    kind = draw.randrange(8)
    if kind == 0:
        return random_bytes(draw, draw.randrange(1, 300))
    data = some_http(draw)
    if kind == 1:
        return data[:draw.randrange(1, len(data))]
    if kind == 2:
        return data + random_bytes(draw, draw.randrange(1, 200))
    if kind == 3:
        changed = bytearray(data)
        changed[draw.randrange(min(len(data), 200))] = draw.randrange(256)
        return bytes(changed)
    return data


def pieces(draw, data):
    if draw.randrange(3):
        return [data]
    cuts = sorted(draw.randrange(len(data)) for _ in range(draw.randrange(1, 5)))
    return [data[a:b] for a, b in zip([0, *cuts], [*cuts, len(data)]) if a < b]


# ---- connections

def connect_once(wiki, draw, number, passed):
    """One hostile connection, whose bytes and status are counted. Tells what was wrong, or nothing."""
    data, source = some_bytes(draw), f"127.0.0.{1 + number % 200}"
    if draw.randrange(50) == 0:
        link = wiki.connect(source=source)
        link.sendall(data)
        reset(link)
        return None
    return exchanged(wiki, pieces(draw, data), source, passed)


def exchanged(wiki, parts, source, passed):
    """A connection over which these pieces come and then nothing more. Counts bytes and status, and tells what was wrong with the
    answer, or nothing."""
    data = b"".join(parts)
    passed["came"] += len(data)
    allowed = expected(data)
    got = b""
    link = wiki.connect(source=source)
    try:
        for piece in parts:
            link.sendall(piece)
        link.shutdown(socket.SHUT_WR)
        got = read_all(link)
        passed["went"] += len(got)
    except (ConnectionResetError, BrokenPipeError):
        # more came than is passed over once the response stands: its front may have been read or not
        return None if len(data) > 100_000 or allowed - {WAIT} else f"reset after {data[:200]!r}"
    finally:
        reset(link)
    try:
        status = parse_response(got)[0] if got else WAIT
    except Closed:
        return f"half a response {got[:200]!r} to {data[:300]!r}"
    passed[status] += 1
    return None if status in allowed else f"{status}, and not one of {sorted(allowed)}, answers {data[:400]!r}"


def many(port, seed, count):
    wiki = object.__new__(Wiki)
    wiki.port = port
    draw, passed = random.Random(seed), collections.Counter()
    for number in range(count):
        try:
            wrong = connect_once(wiki, draw, number, passed)
        except OSError as error:
            wrong = repr(error)
        if wrong:
            return f"connection {number} of seed {seed}: {wrong}", passed
    return None, passed


def connections(wiki, count, seed):
    """So many connections, two at a time. Ends the script at the first wrong answer. Tells how many bytes came and went, and how often
    each status."""
    all_passed = collections.Counter()
    with multiprocessing.get_context("fork").Pool(2) as pool:
        for wrong, passed in pool.starmap(many, [(wiki.port, seed + k, count // 2) for k in range(2)]):
            all_passed += passed
            if wrong:
                raise SystemExit(f"hostile: {wrong}; the program's status is {wiki.process.poll()}")
    status = wiki.page("/")[0]
    if status != 200:
        raise SystemExit(f"hostile: after {count} connections the index has status {status}, and not 200")
    return all_passed


def full_wiki(words, sentences):
    """Lines that bring words and sentences to so many each. The words of hostile requests are among them, with a few sentences."""
    known = [("noun", "cat", "cats"), ("noun", "dog", "dogs"), ("noun", "fish", "fish"), ("verb", "sees", "see", "seen"), ("name", "Ada"), ("name", "Bob")]
    for kind, *forms in known:
        yield {"do": "word", "kind": kind, "forms": forms}
    names = ["N" + "".join(chr(97 + n // p % 26) for p in (676, 26, 1)) for n in range(words - len(known))]
    for name in names:
        yield {"do": "word", "kind": "name", "forms": [name]}
    said = [("Ada", "Ada is a cat."), ("Ada", "Ada sees Bob."), ("cat", "Who is a cat?"), ("cat", "Every cat sees a fish."), ("dog", "No cat is a dog.")]
    for article, text in said:
        yield {"do": "add", "article": article, "text": text}
    # Only some are asserted, since each of these is judged beside all the words, which takes a start long.
    for n in range(sentences - len(said)):
        name = names[n % len(names)]
        yield {"do": "add", "article": name, "text": f"{name} is a fish." if n < 40 else ("Who is a fish?", "A dog is a cat.")[n % 2]}


def at_the_limits(wiki):
    """Asks for one word and one sentence too many, so that what follows meets a wiki at its limits."""
    for request, which in ((dict(do="word", kind="name", forms=["Onemore"]), "words"), (dict(do="add", article="Bob", text="Bob is a cat."), "sentences")):
        if wiki.ask(**request).get("which") != which:
            raise SystemExit(f"hostile: the wiki isn't at its limit of {which}")


def hostile_connections(program, count, given, is_full):
    """So many connections to the wiki of these lines: how long it took to begin, what passed, and how many bytes more it holds after the
    second half than after the first."""
    begun = time.time()
    wiki = Wiki(program, given, options=["--budget", "2000"], waits=False)
    wiki.wait(600)
    began = time.time() - begun
    if is_full:
        at_the_limits(wiki)
    first = connections(wiki, count // 2, 100)
    before = wiki.memory()
    second = connections(wiki, count - count // 2, 200)
    grown = wiki.memory() - before
    wiki.stop()
    return began, first + second, grown


# ---- lines

def hostile_lines(program, count, seed):
    draw = random.Random(seed)
    lines = [some_line(draw) for _ in range(count)]
    with tempfile.TemporaryFile() as given, tempfile.TemporaryFile() as told:
        given.write(b"\n".join(lines) + b"\n")
        given.seek(0)
        status = subprocess.run([program, "replay"], stdin=given, stdout=told).returncode
        told.seek(0)
        replies = told.read().split(b"\n")
    if status or len(replies) != count + 1 or replies.pop():
        raise SystemExit(f"hostile: replay ended with {status} after {len(replies)} replies to {count} lines")
    for line, reply in zip(lines, replies):
        do = None if len(line) > 65535 else request_in(line)
        said = json.loads(reply)
        if (said == BAD_REQUEST) != (do is None) or (do is not None and said.get("done") != do and said.get("refused") not in range(1, 18)):
            wanted = "BadRequest" if do is None else f"{do} that is done, or a refusal 1 to 17"
            raise SystemExit(f"hostile: to {line[:400]!r} expected {wanted}, came {reply[:400]!r}")


def main():
    program, is_long, begun = os.path.abspath(sys.argv[1]), sys.argv[2:] == ["long"], time.time()
    count = 100_000 if is_long else 600
    hostile_lines(program, count, 7)
    print(f"hostile: {count} lines in {time.time() - begun:.1f} s, each answered as it should be", flush=True)
    given, begun = b"".join(json.dumps(it).encode() + b"\n" for it in (full_wiki(5000, 2000) if is_long else full_wiki(100, 60))), time.time()
    began, passed, grown = hostile_connections(program, count, given, is_long)
    if is_long and grown > 2_000_000:
        raise SystemExit(f"hostile: the program holds {grown} bytes more after {count // 2} connections, and not at most 2,000,000")
    print(f"hostile: {count} connections in {time.time() - begun - began:.1f} s behind a start of {began:.1f} s, each answered as it should be; "
          f"{passed.pop('came'):,} bytes came, {passed.pop('went'):,} went, {grown:,} more are held; "
          + ", ".join(f"{times} times {status or 'nothing'}" for status, times in sorted(passed.items())))


if __name__ == "__main__":
    main()
