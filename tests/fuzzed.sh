#!/usr/bin/env bash
# Sends the program a recorded conversation with bits flipped by zzuf, a fuzzer, and holds each answer against the checker of
# hostile.py (fuzzed.py says what must hold). $1 is the program; with `long` as $2 there are 100 times as many connections.
set -u
here="$(cd "$(dirname "${BASH_SOURCE[0]}")" && pwd)"
. "$here/common.sh"
needs python3 zzuf
exec python3 "$here/fuzzed.py" "$@"
