#!/usr/bin/env bash
# Changes that are taken back and done again, by a rule of its own on random lines (history.py), and that `undo` is no request over
# a connection. $1 is the program.
set -u
here="$(cd "$(dirname "${BASH_SOURCE[0]}")" && pwd)"
. "$here/common.sh"
needs python3
python3 "$here/history.py" "$@" || exit 1
python3 - "$1" "$here" <<'END'
import sys
sys.path.insert(0, sys.argv[2])
from running import Wiki, api

LINES = b'{"do":"word","kind":"name","forms":["Bern"]}\n{"do":"add","article":"Bern","text":"Bern is Bern."}\n{"do":"undo"}\n'
wiki = Wiki(sys.argv[1], LINES)
for name in ("undo", "redo"):
    status, _, body = wiki.send(api({"do": name}))
    assert status == 400 and b"0 BadRequest" in body, (status, body)
told = wiki.ask(do="read", article="Bern")
assert told == {"done": "read", "revision": 2, "sentences": []}, told
END
