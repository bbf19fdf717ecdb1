#!/usr/bin/env bash
# Kills a wiki that is kept in one file, cuts its last line, and looks that its pages stay (journal.py). $1 is the program.
set -u
here="$(cd "$(dirname "${BASH_SOURCE[0]}")" && pwd)"
. "$here/common.sh"
needs python3
exec python3 "$here/journal.py" "$@"
