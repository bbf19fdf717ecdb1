#!/usr/bin/env bash
# What `acewiki export` and `acewiki check` write (owl.py says what is compared). $1 is the program, the others are files of recorded
# runs, if any are given; with `long` in their place 1,000 drawn wikis are compared with Debian's Konclude (exported.py).
set -u
here="$(cd "$(dirname "${BASH_SOURCE[0]}")" && pwd)"
. "$here/common.sh"
needs python3
[ "${2:-}" != long ] || exec python3 "$here/exported.py" "$1" 1000
exec python3 "$here/owl.py" "$@"
