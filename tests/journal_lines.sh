#!/usr/bin/env bash
# Looks that each line of the journal is the accepted change as Python's json writes it, and asks for the same (journal_lines.py).
# $1 is the program.
set -u
here="$(cd "$(dirname "${BASH_SOURCE[0]}")" && pwd)"
. "$here/common.sh"
needs python3
exec python3 "$here/journal_lines.py" "$@"
