#!/usr/bin/env bash
# Sends recorded requests to `acewiki serve` and compares what comes back, byte for byte (http_vectors.py says what the files
# are). $1 is the program, $2 a folder and $3 the name of files in it; with `record` as $4 they are recorded anew.
set -u
here="$(cd "$(dirname "${BASH_SOURCE[0]}")" && pwd)"
. "$here/common.sh"
needs python3
exec python3 "$here/http_vectors.py" "$@"
