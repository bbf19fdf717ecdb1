#!/usr/bin/env bash
# What docs/LANGUAGE.md says that the grammars of grammars/ make of sentences, and that the larger one keeps what the built-in one
# says (grammars.py). $1 is the program; with `long` behind it there are 10,000 generated sentences.
set -u
here="$(cd "$(dirname "${BASH_SOURCE[0]}")" && pwd)"
. "$here/common.sh"
needs python3
count=200
[ "${2:-}" != long ] || count=10000
exec python3 "$here/grammars.py" "$1" "$count"
