#!/usr/bin/env bash
# What is told at each limit of a wiki, and one below it (limits.py). $1 is the program.
set -u
here="$(cd "$(dirname "${BASH_SOURCE[0]}")" && pwd)"
. "$here/common.sh"
needs python3
exec python3 "$here/limits.py" "$@"
