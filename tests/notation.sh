#!/usr/bin/env bash
# What the wiki replies to texts of the grammar notation, each with its fault by hand (notation.py). $1 is the program, $2 the texts.
set -u
here="$(cd "$(dirname "${BASH_SOURCE[0]}")" && pwd)"
. "$here/common.sh"
needs python3
exec python3 "$here/notation.py" "$@"
