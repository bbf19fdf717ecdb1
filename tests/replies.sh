#!/usr/bin/env bash
# Runs the lines of a file through `acewiki replay`, and ends with status 1 where the replies aren't those of another file.
# $1 is the program, $2 the file of the lines, $3 that of the replies.
set -u
. "$(dirname "${BASH_SOURCE[0]}")/common.sh"
work="$(mktemp -d)"
trap 'rm -rf "$work"' EXIT
compare_replies "$1" "$2" "$3" 0 "$2"
