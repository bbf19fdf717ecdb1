#!/usr/bin/env bash
# What the program says and leaves where the outside fails (faults.py says what must hold). $1 is the program.
set -u
here="$(cd "$(dirname "${BASH_SOURCE[0]}")" && pwd)"
. "$here/common.sh"
needs python3
exec python3 "$here/faults.py" "$@"
