#!/usr/bin/env bash
# Kills the program at random moments while three clients change the wiki, and cuts its journal at the bytes of its last line
# (kill.py says what must hold). $1 is the program; with `long` as $2 there are 200 kills and each byte is tried.
set -u
here="$(cd "$(dirname "${BASH_SOURCE[0]}")" && pwd)"
. "$here/common.sh"
needs python3
exec python3 "$here/kill.py" "$@"
