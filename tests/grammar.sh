#!/usr/bin/env bash
# Gives a wiki other grammars while it runs: what is taken and what stands against it, sessions, and the journal (grammar.py). $1 is
# the program.
set -u
here="$(cd "$(dirname "${BASH_SOURCE[0]}")" && pwd)"
. "$here/common.sh"
needs python3
exec python3 "$here/grammar.py" "$@"
