#!/usr/bin/env bash
# That a refused request changes nothing (unchanged.py says how that is looked at). $1 is the program, $2 the document.
set -u
here="$(cd "$(dirname "${BASH_SOURCE[0]}")" && pwd)"
. "$here/common.sh"
needs python3
exec python3 "$here/unchanged.py" "$@"
