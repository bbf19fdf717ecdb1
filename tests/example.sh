#!/usr/bin/env bash
# Runs examples/geography.jsonl and then a `read` of each article that it writes to, in the order in which they come first, and
# ends with status 1 where the replies aren't those of examples/geography.replies. $1 is the program.
set -u
examples="$(cd "$(dirname "${BASH_SOURCE[0]}")/../examples" && pwd)"
work="$(mktemp -d)"
trap 'rm -rf "$work"' EXIT
awk '{ print }
    match($0, /"article":"[^"]*"/) {
        article = substr($0, RSTART, RLENGTH)
        if (!seen[article]++)
            reads = reads "{\"do\":\"read\"," article "}\n"
    }
    END { printf "%s", reads }' "$examples/geography.jsonl" >"$work/lines"
"$1" replay <"$work/lines" >"$work/got" || { echo "example: the program ended with status $?"; exit 1; }
while IFS= read -r line <&3; do
    wanted='' got=''
    IFS= read -r wanted <&4
    IFS= read -r got <&5
    if [ "$got" != "$wanted" ]; then
        echo "example: expected $wanted, came $got, to $line"
        exit 1
    fi
done 3<"$work/lines" 4<"$examples/geography.replies" 5<"$work/got"
if ! cmp -s "$work/got" "$examples/geography.replies"; then
    echo "example: expected $(wc -l <"$examples/geography.replies") replies, came $(wc -l <"$work/got")"
    exit 1
fi
