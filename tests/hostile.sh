#!/usr/bin/env bash
# Sends the program random, cut, oversized and mixed requests and lines, and holds each answer against a small checker of its
# own (hostile.py). $1 is the program; with `long` as $2 there are 100,000 connections and 100,000 lines.
set -u
here="$(cd "$(dirname "${BASH_SOURCE[0]}")" && pwd)"
. "$here/common.sh"
needs python3
exec python3 "$here/hostile.py" "$@"
