#!/usr/bin/env bash
# Lets one allocation of the program fail after the other (memory.py says what must hold). $1 is the program. It takes minutes,
# and isn't part of the gate.
set -u
here="$(cd "$(dirname "${BASH_SOURCE[0]}")" && pwd)"
. "$here/common.sh"
needs python3 cc
exec python3 "$here/memory.py" "$@"
