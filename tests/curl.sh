#!/usr/bin/env bash
# Runs the commands of the section "With curl" of a document on an empty wiki, one after the other, and ends with status 1
# where one prints something else than stands below it. $1 is the program, $2 the document.
set -u
. "$(dirname "${BASH_SOURCE[0]}")/common.sh"
needs curl
work="$(mktemp -d)"
trap 'kill $wiki 2>/dev/null; rm -rf "$work"' EXIT
# The address that the document shows may be taken on this machine.
serve_empty "$1" "$work/journal"
awk '/^## /{inside = /^## With curl/} inside && /^```/ {block = !block; next} inside && block' "$2" | sed "s/127\.0\.0\.1:8080/$address/g" >"$work/block"
command='' count=0
: >"$work/want"
check() {
    [ -n "$command" ] || return 0
    bash -c "$command" >"$work/got" 2>"$work/errors"
    count=$((count + 1))
    if ! cmp -s "$work/got" "$work/want"; then
        echo "curl: another answer in $2 to: $command"
        echo "expected:"
        cat "$work/want"
        echo "came:"
        cat "$work/got" "$work/errors"
        exit 1
    fi
}
while IFS= read -r line; do
    case "$line" in
    '$ '*) check "$@"; command="${line#\$ }"; : >"$work/want" ;;
    *) printf '%s\n' "$line" >>"$work/want" ;;
    esac
done <"$work/block"
check "$@"
[ "$count" -gt 0 ] || { echo "curl: no commands in $2"; exit 1; }
