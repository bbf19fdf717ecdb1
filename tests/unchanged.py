"""unchanged.py PROGRAM DOCUMENT: each table of lines in a document is sent line by line to a wiki of its own, and around each
line that is refused all that the wiki tells is asked: its words, each article, and the menu of each session.

A refused request leaves all of it as it was.
"""
import json, re, subprocess, sys
from running import form_of


class Asked:
    """A wiki behind a pipe, which is told one line and answers by one."""

    def __init__(self, program):
        self.process = subprocess.Popen([*program, "replay"], stdin=subprocess.PIPE, stdout=subprocess.PIPE)
        self.sessions = 0

    def told(self, line):
        self.process.stdin.write(line.encode() + b"\n")
        self.process.stdin.flush()
        reply = json.loads(self.process.stdout.readline())
        self.sessions = max(self.sessions, reply.get("session", 0) if reply.get("done") == "open" else 0)
        return reply

    def ask(self, **request):
        return self.told(json.dumps(request))

    def all(self):
        """Whatever it tells, but that the next session's number isn't asked for."""
        words = self.ask(do="words")
        articles = [self.ask(do="read", article=form_of(word)) for word in words["words"]]
        return [words, articles, [self.ask(do="menu", session=number + 1) for number in range(self.sessions)]]

    def end(self):
        self.process.stdin.close()
        if self.process.wait(60):
            raise SystemExit(f"unchanged: the program ended with {self.process.returncode}")


def tables(document):
    """The lines of each table, in order."""
    found, inside = [], False
    with open(document, encoding="utf-8") as rows:
        for row in rows:
            if row.strip() == "| Line | Reply |":
                found.append([])
            inside = row.startswith("|") and (inside or row.strip() == "| Line | Reply |")
            cells = re.fullmatch(r"\| `(.*)` \| `(.*)` \|\n", row)
            if inside and cells:
                found[-1].append(cells[1])
    return found


def main(document, *program):
    refused = 0
    for lines in tables(document):
        wiki = Asked(program)
        before = wiki.all()
        for line in lines:
            is_refused = "refused" in wiki.told(line)
            after = wiki.all()
            if is_refused and after != before:
                raise SystemExit(f"unchanged: after {line} the wiki tells {after} and not {before}")
            refused += is_refused
            before = after
        wiki.end()
    if not refused:
        raise SystemExit(f"unchanged: no line of {document} is refused")


main(sys.argv[2], sys.argv[1])
