#!/usr/bin/env bash
# That a question is answered again without a search, and that its answers are those of now (asked_again.py says how). $1 is the
# program; with `long` as $2 there are more random runs.
set -u
here="$(cd "$(dirname "${BASH_SOURCE[0]}")" && pwd)"
. "$here/common.sh"
needs python3
exec python3 "$here/asked_again.py" "$@"
