#!/usr/bin/env bash
# How fast `acewiki replay` finds names, and how much memory it takes, on the proved program.
# 100,000 `find` lines over 50 and over 5,000 names, and a million over 5,000: lines a second and the peak of memory.
set -eu
root="$(cd "$(dirname "${BASH_SOURCE[0]}")/.." && pwd)"
program="$("$root/bench/program" acewiki)"
work="$(mktemp -d)"
trap 'rm -rf "$work"' EXIT

# Names of four letters, none of which is a word of the grammar, and then requests for them in an order that jumps about.
requests() { # NAMES FINDS
    awk -v names="$1" -v finds="$2" 'function name(n) {
            return "N" substr(abc, int(n / 676) % 26 + 1, 1) substr(abc, int(n / 26) % 26 + 1, 1) substr(abc, n % 26 + 1, 1)
        }
        BEGIN {
            abc = "abcdefghijklmnopqrstuvwxyz"
            for (n = 0; n < names; n++) printf "{\"do\":\"word\",\"kind\":\"name\",\"forms\":[\"%s\"]}\n", name(n)
            for (i = 0; i < finds; i++) printf "{\"do\":\"find\",\"word\":\"%s\"}\n", name((i * 7919) % names)
        }'
}

printf '%8s %10s %14s %12s\n' names finds 'lines/second' 'peak KB'
for case in '50 100000' '5000 100000' '5000 1000000'; do
    read -r names finds <<<"$case"
    requests "$names" "$finds" >"$work/in"
    lines="$(wc -l <"$work/in")"
    /usr/bin/time -f '%e %M' -o "$work/time" "$program" replay <"$work/in" >"$work/out"
    [ "$(wc -l <"$work/out")" = "$lines" ]
    ! grep -qv '"done"' "$work/out"
    awk -v names="$names" -v finds="$finds" -v lines="$lines" '{ printf "%8d %10d %14d %12d\n", names, finds, lines / ($1 > 0 ? $1 : 0.001), $2 }' "$work/time"
done
