#!/usr/bin/env bash
# What `acewiki why` writes (retelling.py says what is compared). $1 is the program, $2 a file of recorded runs, if one is given.
set -u
here="$(cd "$(dirname "${BASH_SOURCE[0]}")" && pwd)"
. "$here/common.sh"
needs python3
program="$1"
shift
exec python3 "$here/retelling.py" "$program" why "$@"
