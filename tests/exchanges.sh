#!/usr/bin/env bash
# What the wiki replies to lines on words, articles and sentences (exchanges.py says how they are compared). $1 is the program, $2 a
# file of exchanges.
set -u
here="$(cd "$(dirname "${BASH_SOURCE[0]}")" && pwd)"
. "$here/common.sh"
needs python3
exec python3 "$here/exchanges.py" "$@"
