#!/usr/bin/env bash
# What sentences of the built-in grammar mean: their axioms, classes and causes by hand (meanings.py). $1 is the program, $2 the sentences.
set -u
here="$(cd "$(dirname "${BASH_SOURCE[0]}")" && pwd)"
. "$here/common.sh"
needs python3
exec python3 "$here/meanings.py" "$@"
