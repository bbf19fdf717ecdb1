#!/usr/bin/env bash
# Wikis whose models are small and whose trees of successors are large, or endless (sharing.py). $1 is the program.
set -u
here="$(cd "$(dirname "${BASH_SOURCE[0]}")" && pwd)"
. "$here/common.sh"
needs python3
exec python3 "$here/sharing.py" "$1"
