#!/usr/bin/env bash
# More connections than the program has descriptors for (descriptors.py says what must hold). $1 is the program.
set -u
here="$(cd "$(dirname "${BASH_SOURCE[0]}")" && pwd)"
. "$here/common.sh"
needs python3
exec python3 "$here/descriptors.py" "$@"
