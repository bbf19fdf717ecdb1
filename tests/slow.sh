#!/usr/bin/env bash
# Slow connections beside three working clients, connections that are never read or are reset, and attacks by those that
# trickle (slow.py says what must hold). $1 is the program; with `long` as $2 it goes on for ten minutes.
set -u
here="$(cd "$(dirname "${BASH_SOURCE[0]}")" && pwd)"
. "$here/common.sh"
needs python3
exec python3 "$here/slow.py" "$@"
