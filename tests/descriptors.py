"""More connections than the program has descriptors for.

descriptors.py PROGRAM: the program may open sixteen files. Forty connections are opened, none of which sends anything at first;
then each asks, the last one first. Each is answered in the end, and so is one more after them.
"""
import json, os, stat, sys, tempfile
from running import Wiki, api, read_response

FILES, CONNECTIONS = 16, 40
LINES = json.dumps(dict(do="word", kind="name", forms=["Bern"])).encode() + b"\n"


def limited(program, folder):
    """A program that does the same with few descriptors."""
    path = os.path.join(folder, "limited")
    with open(path, "w") as it:
        it.write(f'#!/usr/bin/env bash\nulimit -n {FILES}\nexec "{program}" "$@"\n')
    os.chmod(path, stat.S_IRWXU)
    return path


def main():
    with tempfile.TemporaryDirectory() as folder:
        wiki = Wiki(limited(os.path.abspath(sys.argv[1]), folder), LINES)
        links = [wiki.connect() for _ in range(CONNECTIONS)]
        for link in reversed(links):
            link.sendall(api(dict(do="find", word="Bern")))
        for number, link in enumerate(links):
            status, _, body = read_response(link)
            link.close()
            if status != 200 or json.loads(body).get("done") != "find":
                raise SystemExit(f"descriptors: connection {number} has the answer {status} {body!r}")
        if wiki.ask(do="find", word="Bern").get("done") != "find":
            raise SystemExit("descriptors: nothing is answered any more")
        wiki.stop()
    print(f"descriptors: {CONNECTIONS} connections answered with {FILES} descriptors")


main()
