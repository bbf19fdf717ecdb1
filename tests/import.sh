#!/usr/bin/env bash
# What `acewiki import` makes of ontologies (imported.py says what is compared). $1 is the program; with `long` behind it there are
# 2,000 drawn files and as many wikis.
set -u
here="$(cd "$(dirname "${BASH_SOURCE[0]}")" && pwd)"
. "$here/common.sh"
needs python3
count=40
[ "${2:-}" != long ] || count=2000
exec python3 "$here/imported.py" "$1" "$count"
