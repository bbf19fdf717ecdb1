#!/usr/bin/env bash
# Many connections at once on the real link, and requests that are odd in each way (link.py). $1 is the program. It takes some
# seconds.
set -u
here="$(cd "$(dirname "${BASH_SOURCE[0]}")" && pwd)"
. "$here/common.sh"
needs python3
exec timeout 120 python3 "$here/link.py" "$@"
