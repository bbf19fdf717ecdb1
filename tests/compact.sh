#!/usr/bin/env bash
# tools/compact as docs/OPERATIONS.md tells it, and what tools/serve says of a file that should be made short (compact.py says
# what must hold). $1 is the program.
set -u
here="$(cd "$(dirname "${BASH_SOURCE[0]}")" && pwd)"
. "$here/common.sh"
needs python3 flock setpriv
exec python3 "$here/compact.py" "$@"
