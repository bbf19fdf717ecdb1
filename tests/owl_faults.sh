#!/usr/bin/env bash
# What `check` tells of files with a fault, each worked out by hand (owl_faults.py). $1 is the program, $2 the files.
set -u
here="$(cd "$(dirname "${BASH_SOURCE[0]}")" && pwd)"
. "$here/common.sh"
needs python3
exec python3 "$here/owl_faults.py" "$@"
