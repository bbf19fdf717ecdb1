#!/usr/bin/env bash
# Lets one call of the operating system after the other fail under the program (calls.py says what must hold). $1 is the program.
set -u
here="$(cd "$(dirname "${BASH_SOURCE[0]}")" && pwd)"
. "$here/common.sh"
needs python3 cc
exec python3 "$here/calls.py" "$@"
