#!/usr/bin/env bash
# How `say` says again what sentences state, worked out by hand from the patterns (sayings.py). $1 is the program, $2 the sentences.
set -u
here="$(cd "$(dirname "${BASH_SOURCE[0]}")" && pwd)"
. "$here/common.sh"
needs python3
exec python3 "$here/sayings.py" "$@"
