#!/usr/bin/env bash
# Looks that what docs/MEANING.md says axioms as is told by the program as just those axioms (said.py). $1 is the program; with
# `long` behind it there are 2,000 axioms of each row.
set -u
here="$(cd "$(dirname "${BASH_SOURCE[0]}")" && pwd)"
. "$here/common.sh"
needs python3
count=50
[ "${2:-}" != long ] || count=2000
exec python3 "$here/said.py" round "$1" "$count"
