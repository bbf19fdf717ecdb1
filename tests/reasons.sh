#!/usr/bin/env bash
# What `acewiki why` tells of small wikis, beside leaving out one by one with an exhaustive search for models (reasons.py). $1 is the
# program; with `long` behind it 10,000 reasons are compared.
set -u
here="$(cd "$(dirname "${BASH_SOURCE[0]}")" && pwd)"
. "$here/common.sh"
needs python3
count=1000
[ "${2:-}" != long ] || count=10000
exec python3 "$here/reasons.py" "$1" "$count"
