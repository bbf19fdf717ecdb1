"""Many connections at once on the real link: pieces in turn, half-sent requests beside whole ones, too many openings, cuts at
each byte, ends before the end, and requests that are odd in each way.

link.py PROGRAM [times]: with `times` it tells how long each took.
"""
import json, select, socket, struct, subprocess, sys, time
import running

PORT, HELD = running.held_port()
HEAD = "HTTP/1.1\r\nHost: here\r\n"
WORDS = "".join(json.dumps(dict(do="word", kind="name", forms=[f"Name{chr(97 + n // 26)}{chr(97 + n % 26)}"])) + "\n" for n in range(64))
CUT = f"POST /api {HEAD}Content-Length: 34\r\n\r\n" + '{"do":"find",  "word":  "Nameaa"}\n'
FOUND = '{"done":"find","word":{"forms":["Nameaa"],"kind":"name"}}\n'


def fail(text):
    sys.exit("link: " + text)


def opened():
    link = socket.create_connection(("127.0.0.1", PORT), timeout=10)
    link.setsockopt(socket.IPPROTO_TCP, socket.TCP_NODELAY, 1)
    return link


def answer(link):
    got = b""
    while part := link.recv(65536):
        got += part
    link.close()
    return got.decode()


def sent(text):
    link = opened()
    link.sendall(text if isinstance(text, bytes) else text.encode())
    return answer(link)


def expect(what, got, status, part=""):
    if not got.startswith(f"HTTP/1.1 {status} ") or part not in got:
        fail(f"{what}: expected {status} with {part!r}, came {got[:600]!r}")


def find(n):
    word = f"Name{chr(97 + n // 26)}{chr(97 + n % 26)}"
    body = json.dumps(dict(do="find", word=word))
    return f"POST /api {HEAD}Content-Length: {len(body)}\r\n\r\n{body}".encode(), f'"forms":["{word}"]'


def in_turn(count=64):
    links, asked = [opened() for _ in range(count)], [find(n) for n in range(count)]
    for place in range(max(len(request) for request, _ in asked)):
        for link, (request, _) in zip(links, asked):
            if place < len(request):
                link.send(request[place : place + 1])
    for link, (_, part) in zip(links, asked):
        expect("byte by byte in turn", answer(link), 200, part)


def beside_idle():
    idle = [opened() for _ in range(32)]
    in_turn(32)
    for link in idle:
        link.sendall(CUT.encode())
        expect("one that was idle", answer(link), 200, FOUND)


def half_sent():
    links, asked = [opened() for _ in range(63)], [find(n) for n in range(63)]
    cuts = [20 + n % 10 if n % 2 else len(asked[n][0]) - 1 - n % 20 for n in range(63)]
    for link, (request, _), cut in zip(links, asked, cuts):
        link.sendall(request[:cut])
    for _ in range(5):
        expect("beside 63 that are half sent", sent(find(63)[0]), 200, find(63)[1])
    for link, (request, part), cut in reversed(list(zip(links, asked, cuts))):
        link.sendall(request[cut:])
        expect("the rest of a half", answer(link), 200, part)


def too_many():
    """Where 64 are open, each further one is answered, and those that were silent for longest end without a response: first
    those on which no empty line has come."""
    links = [opened() for _ in range(64)]
    time.sleep(0.2)
    links[0].sendall(CUT[:-1].encode())
    links[1].sendall(CUT[:-40].encode())
    time.sleep(0.2)
    more = [opened() for _ in range(3)]
    time.sleep(0.2)
    for link in more:
        link.sendall(CUT.encode())
        expect("one of more than 64", answer(link), 200, FOUND)
    for link in links[2:5]:
        if got := answer(link):
            fail(f"one that makes room is answered: {got!r}")
    for link, cut in [(links[0], -1), (links[1], -40)] + [(link, 0) for link in links[5:]]:
        link.sendall(CUT[cut:].encode())
        expect("the others of the 64", answer(link), 200, FOUND)


def cut_anywhere():
    for cut in range(1, len(CUT)):
        link = opened()
        link.sendall(CUT[:cut].encode())
        time.sleep(0.002)
        link.sendall(CUT[cut:].encode())
        expect(f"cut at {cut}", answer(link), 200, FOUND)
    for cut in range(0, len(CUT), 7):
        link = opened()
        link.sendall(CUT[:cut].encode())
        link.shutdown(socket.SHUT_WR)
        if got := answer(link):
            fail(f"an end after {cut} bytes: expected no answer, came {got!r}")


def gone():
    for cut in (0, 1, 30, len(CUT)):
        link = opened()
        link.sendall(CUT[:cut].encode())
        link.setsockopt(socket.SOL_SOCKET, socket.SO_LINGER, struct.pack("ii", 1, 0))
        link.close()
    expect("after some were reset", sent(CUT), 200, FOUND)


def behind():
    for more in (1, 5000, 200000):
        expect(f"{more} bytes behind the request", sent(CUT.encode() + b"x" * more), 200, FOUND)


def endless():
    link = opened()
    link.sendall(CUT.encode())
    try:
        for _ in range(400):
            link.sendall(b"x" * 65536)
    except OSError:
        return
    fail("26 million bytes behind a request are passed over")


def unclosed():
    """More clients than there are places keep their sockets open when they are answered."""
    links = []
    for _ in range(200):
        links.append(opened())
        links[-1].sendall(CUT.encode())
        if not links[-1].recv(100).startswith(b"HTTP/1.1 200 "):
            fail(f"connection {len(links)} of those that don't close: expected 200, came something else")


def worked():
    """How long the program has had a processor, in hundredths of a second."""
    with open(f"/proc/{wiki.pid}/stat") as stat:
        return sum(map(int, stat.read().split()[13:15]))


def still():
    """Nothing is done while nothing comes, whether one more may be let in or not."""
    links = [opened() for _ in range(63)]
    for count in (63, 66):
        links += [opened() for _ in range(count - len(links))]
        for link in links[:63]:
            link.sendall(b"G")
        time.sleep(0.3)
        before = worked()
        time.sleep(0.7)
        if worked() - before > 5:
            fail(f"{worked() - before} hundredths of a second of work for {count} connections on which nothing comes")


def told(request, status, part):
    """What comes for a request, in which no text of it stands as an element."""
    got = sent(request)
    expect(repr(request[:80]), got, status, part)
    if "<script" in got:
        fail(f"a text leaves its element: {got!r}")


def odd_targets():
    for target, status, part in [
        ("/article/%zz", 404, "1 NoWord"),
        ("/article/%FF%C3", 404, "1 NoWord"),
        ("/article/a%00b", 404, "1 NoWord"),
        ("/article/Nameaa%2Fadd", 404, "1 NoWord"),
        ("/article/Name%61a?x=/add", 200, "<h1>Nameaa</h1>"),
        ("/session/0000000001", 404, "6 NoSession"),
        ("/session/00000000001", 400, "400 Bad Request"),
        ("/session/4294967296", 400, "400 Bad Request"),
        ("/session/%2B1", 400, "400 Bad Request"),
        ("/none", 404, "404 Not Found"),
        ("/word", 405, "\r\nAllow: POST\r\n"),
    ]:
        told(f"GET {target} {HEAD}\r\n", status, part)
    for byte in (b"\xff", b"\x00"):
        told(b"GET /article/" + byte + f" {HEAD}\r\n".encode(), 400, "400 Bad Request")


def odd_fields():
    index, bad, large = (200, "<h1>AceWiki</h1>"), (400, "400 Bad Request"), (413, "413 Payload Too Large")
    for fields, (status, part) in [
        ("Host: here\r\nNote: \0\r\n\r\n", bad),
        ("Host: here\r\nContent-Length: 0000000000000000000\r\n\r\n", index),
        ("Host: here\r\nContent-Length: 00000000000000000000\r\n\r\n", bad),
        ("Host: here\r\nContent-Length: 1\r\nContent-Length: 01\r\n\r\nx", index),
        ("Host: here\r\nContent-Length: 1\r\nContent-Length: 2\r\n\r\nxx", bad),
        ("Host: here\r\nContent-Length: 65537\r\n\r\n", large),
        ("Host: here\r\nX: " + "x" * 16384, large),
        ("Host: here\r\n" + "A: b\r\n" * 63 + "\r\n", index),
        ("Host: here\r\n" + "A: b\r\n" * 64 + "\r\n", bad),
        ("Host: here\r\nTransfer-Encoding: chunked\r\n\r\n", (501, "501 Not Implemented")),
        ("Host: here\r\nhOsT: there\r\n\r\n", bad),
        ("\r\n", bad),
    ]:
        told(f"GET / HTTP/1.1\r\n{fields}", status, part)
    told("GET / HTTP/1.0\r\n\r\n", *index)


def odd_bodies():
    for path, body, status, part in [
        ("/word", "kind=name", 400, "400 Bad Request"),
        ("/word", "kind=cat&forms=x", 400, "400 Bad Request"),
        ("/word", "kind=name&kind=noun&forms=%zz&forms=Ok", 409, "2 BadForm"),
        ("/word", "kind=name&forms=%00", 409, "2 BadForm"),
        ("/word", "kind=name&forms=%FF", 409, "2 BadForm"),
        ("/word", "%6bind=name&forms=+Nameaa++", 409, "3 Taken"),
        ("/article/Nameaa/remove", "at=0000000000", 404, "5 NoPlace"),
        ("/article/Nameaa/remove", "at=-0", 400, "400 Bad Request"),
        ("/article/Nameaa/remove", "at=4294967296", 400, "400 Bad Request"),
        ("/article/Nameaa/add", "text=%3Cscript%3Ealert(%22%26%22)%3C/script%3E", 409, "NotSentence"),
        ("/api", "{", 400, "0 BadRequest"),
        ("/api", '{"do":"find","word":"\\ud800"}', 400, "0 BadRequest"),
        ("/api", '{"do":"find",\n"word":"Bonn"}', 404, '{"name":"NoWord"'),
        ("/api", " " * 65536, 400, "0 BadRequest"),
    ]:
        told(f"POST {path} {HEAD}Content-Length: {len(body)}\r\n\r\n{body}", status, part)


def started(lines, *options):
    """A program that serves, from these lines on, and the first connection to it."""
    wiki = running.started([sys.argv[1], "serve", f"127.0.0.1:{PORT}", *options], stdin=subprocess.PIPE, stdout=subprocess.PIPE)
    wiki.stdin.write(lines.encode())
    wiki.stdin.close()
    for _ in running.moments():
        try:
            return wiki, opened()
        except OSError:
            if wiki.poll() is not None:
                fail(f"the program ended with status {wiki.returncode}")
    fail("the program doesn't listen within 60 s")


def few_events():
    """An opening and a request are two events; the third is an opening, which gets nothing, and the end."""
    wiki, link = started("", "--events", "3")
    try:
        link.sendall(f"GET / {HEAD}\r\n".encode())
        got = answer(link)
        expect("the index of an empty wiki", got, 200, "\r\nContent-Length: 274\r\n")
        body, after = got.split("\r\n\r\n")[1], answer(opened())
        status, journal = wiki.wait(60), wiki.stdout.read()
        if (len(body), after, status, journal) != (274, "", 0, b""):
            fail(f"three events: expected 274 bytes of the index, nothing for the third, status 0 and no journal; came {body!r}, {after!r}, {status}, {journal!r}")
    finally:
        wiki.kill()


few_events()
wiki, link = started(WORDS)
try:
    link.close()
    expect("a first request", sent(CUT), 200, FOUND)
    for test in (in_turn, beside_idle, half_sent, too_many, cut_anywhere, gone, behind, endless, odd_targets, odd_fields, odd_bodies, unclosed, still, in_turn):
        begun = time.time()
        test()
        if len(sys.argv) > 2:
            print(f"{test.__name__:20} {time.time() - begun:6.2f} s")
    if wiki.poll() is not None:
        fail(f"the program has ended with status {wiki.returncode}, and not gone on")
    if select.select([wiki.stdout], [], [], 0)[0]:
        fail(f"something went to the journal: {wiki.stdout.read1(200)!r}")
finally:
    wiki.kill()
