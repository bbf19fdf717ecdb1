"""Slow connections, connections that don't take their responses, and attacks by both, beside clients at work.

slow.py PROGRAM [long]: first fifty connections send a byte of a request each second. Beside them three clients ask one thing
after the other, a connection doesn't read a large response, and connections are reset before theirs is sent. Each answer to a
client at work comes within 100 ms: with `long` each of them for fifteen seconds, else nine of ten over six seconds and each
within two, since the gate's machine has other work. The slow requests are answered in the end.

Then come the attacks, each for five seconds, or for a minute and a half with `long`: 200 connections that trickle a head, 64 that
send a byte every 25 seconds, and 64 that ask and don't read; each is opened anew where it ends. With `long` slowhttptest attacks
too, with slow heads, slow bodies and slow reading, where it is installed. Of the requests of the clients at work at most one in a
hundred fails or takes over a second.
"""
import json, multiprocessing, os, select, shutil, socket, subprocess, sys, threading, time
from running import Closed, Wiki, api, read_response, reset

SLOW, LIMIT = 50, 0.1
HEAD = b"GET / HTTP/1.1\r\nHost: here\r\n"
INDEX = HEAD + b"\r\n"


class Worker(threading.Thread):
    """Asks one thing after the other, and notes how long each answer took and what went wrong."""

    def __init__(self, wiki, number, until):
        super().__init__()
        self.wiki, self.number, self.until, self.times, self.wrong = wiki, number, until, [], []

    def run(self):
        asks = [dict(do="words"), dict(do="add", article="cat", text="Ada is a cat."), dict(do="remove", article="cat", at=0),
                dict(do="read", article="Ada"), dict(do="find", word="cats"), dict(do="parse", text="Every cat is a cat.")]
        turn = 0
        while time.time() < self.until:
            begun = time.time()
            try:
                status, _, _ = self.wiki.send(api(asks[(turn + self.number) % len(asks)]), 10)
                if status not in (200, 404):
                    self.wrong.append(f"status {status}")
            except (OSError, Closed) as wrong:
                self.wrong.append(repr(wrong))
            self.times.append(time.time() - begun)
            turn += 1
            time.sleep(0.005)


def slow_requests(links, until):
    """Sends a byte of a request a second on each connection, and then what is left of it."""
    rest = [api(dict(do="find", word="cat")) for _ in links]
    while time.time() < until:
        for number, link in enumerate(links):
            link.sendall(rest[number][:1])
            rest[number] = rest[number][1:]
        time.sleep(1)
    for number, link in enumerate(links):
        link.sendall(rest[number])
        status = read_response(link)[0]
        if status != 200:
            raise SystemExit(f"slow: slow request {number} has status {status}, and not 200")
        link.close()


def unread_and_reset(wiki, until):
    """A connection that doesn't read its response, and others that are reset where one is due."""
    unread = wiki.connect()
    unread.sendall(INDEX)
    while time.time() < until:
        link = wiki.connect()
        link.sendall(INDEX)
        reset(link)
        time.sleep(0.05)
    unread.close()


class Attack:
    """Connections that begin with these bytes, send a byte of a head after each pause, and are opened anew where they end."""

    def __init__(self, count, begin, pause, reads=True):
        self.count, self.begin, self.pause, self.reads = count, begin, pause, reads

    def opened(self, wiki):
        link = socket.socket()
        if not self.reads:
            link.setsockopt(socket.SOL_SOCKET, socket.SO_RCVBUF, 2048)
        link.settimeout(5)
        link.connect(("127.0.0.1", wiki.port))
        link.sendall(self.begin)
        link.setblocking(False)
        return link

    def goes_on(self, link):
        """Sends a byte. False where the connection has ended."""
        try:
            if self.reads and select.select([link], [], [], 0)[0] and not link.recv(4096):
                return False
            return not self.pause or link.send(b"x") == 1
        except BlockingIOError:
            return True
        except OSError:
            return False

    def run(self, wiki, until):
        links = []
        while time.time() < until:
            turn = time.time()
            for place in range(self.count):
                try:
                    if place == len(links):
                        links.append(self.opened(wiki))
                    elif not self.goes_on(links[place]):
                        links[place].close()
                        links[place] = self.opened(wiki)
                except OSError:
                    pass
            while time.time() < min(until, turn + (self.pause or 1)):
                time.sleep(0.01)
        for link in links:
            link.close()


def tested(wiki, until, *words):
    """Attacks with slowhttptest."""
    seconds = str(int(until - time.time()))
    command = ["slowhttptest", "-c", "1000", "-r", "200", "-l", seconds, "-p", "5", "-u", f"http://127.0.0.1:{wiki.port}/", *words]
    subprocess.run(command, stdout=subprocess.DEVNULL, stderr=subprocess.DEVNULL, timeout=2 * int(seconds) + 60)


def attacks(is_long):
    """What each attack is called, and what does it to a wiki until a time."""
    yield "200 connections that trickle", Attack(200, HEAD, 1).run
    yield "64 connections that send a byte every 25 seconds", Attack(64, b"G", 25).run
    yield "64 connections that don't read", Attack(64, INDEX, 0, reads=False).run
    if is_long and shutil.which("slowhttptest"):
        yield "slowhttptest, slow heads", lambda wiki, until: tested(wiki, until, "-H", "-i", "10")
        yield "slowhttptest, slow bodies", lambda wiki, until: tested(wiki, until, "-B", "-i", "10")
        yield "slowhttptest, slow reading", lambda wiki, until: tested(wiki, until, "-X", "-w", "1", "-y", "2", "-z", "1", "-n", "5")


def attacked(wiki, name, attack, seconds):
    """Three clients at work beside an attack: at most one request in a hundred fails or takes over a second."""
    until = time.time() + seconds
    attacker = multiprocessing.Process(target=attack, args=(wiki, until))
    attacker.start()
    time.sleep(1)
    workers = [Worker(wiki, number, until) for number in range(3)]
    for thread in workers:
        thread.start()
    for thread in [*workers, attacker]:
        thread.join()
    times = sorted(it for worker in workers for it in worker.times)
    wrong = [it for worker in workers for it in worker.wrong]
    bad = len(wrong) + sum(it > 1 for it in times)
    if not times or 100 * bad > len(times):
        raise SystemExit(f"slow: beside {name} {bad} of {len(times)} requests failed or took over a second: {wrong[:3]}")
    print(f"slow: {len(times)} answers beside {name}, {len(wrong)} failed, half within {times[len(times) // 2] * 1000:.1f} ms, "
          f"the longest {times[-1] * 1000:.1f} ms")


def lines():
    """Enough words that the index is larger than what a socket takes at once."""
    yield dict(do="word", kind="noun", forms=["cat"])
    yield dict(do="word", kind="name", forms=["Ada"])
    for n in range(1500):
        yield dict(do="word", kind="adjective", forms=["n" + "".join(chr(97 + n // p % 26) for p in (676, 26, 1)) + "x" * 50])


def beside_slow_requests(wiki, seconds, is_long):
    """Clients at work beside connections that send a byte each second, and get their answers in the end."""
    begun, until = time.time(), time.time() + seconds
    links = [wiki.connect() for _ in range(SLOW)]
    workers = [Worker(wiki, number, until) for number in range(3)]
    other = threading.Thread(target=unread_and_reset, args=(wiki, until))
    for thread in [*workers, other]:
        thread.start()
    slow_requests(links, until)
    for thread in [*workers, other]:
        thread.join()
    times = sorted(it for worker in workers for it in worker.times)
    for worker in workers:
        if worker.wrong:
            raise SystemExit(f"slow: a client at work got no answer: {worker.wrong[0]}")
    late = sum(it > LIMIT for it in times)
    allowed = 0 if is_long else len(times) // 10
    if late > allowed or times[-1] > 2:
        raise SystemExit(f"slow: {late} of {len(times)} answers took over {LIMIT} s, and not at most {allowed}; the longest {times[-1]:.3f} s, and not at most 2 s")
    print(f"slow: {len(times)} answers beside {SLOW} slow connections, half within {times[len(times) // 2] * 1000:.1f} ms, "
          f"the longest {times[-1] * 1000:.1f} ms, in {time.time() - begun:.1f} s")


def main():
    program, is_long = os.path.abspath(sys.argv[1]), sys.argv[2:] == ["long"]
    wiki = Wiki(program, b"".join(json.dumps(it).encode() + b"\n" for it in lines()))
    try:
        beside_slow_requests(wiki, 15 if is_long else 6, is_long)
        for name, attack in attacks(is_long):
            attacked(wiki, name, attack, 90 if is_long else 5)
        status = wiki.page("/article/cat")[0]
        if status != 200:
            raise SystemExit(f"slow: after all others have gone an article has status {status}, and not 200")
    finally:
        wiki.stop()


main()
