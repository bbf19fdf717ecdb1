#!/usr/bin/env bash
# How long `acewiki make` takes for 5, 200 and 2,000 sentences with seed 7, on the proved program: the median and the worst of
# five runs in seconds of processor time, the peak of memory, and the summary, which must be the same each time.
set -eu
root="$(cd "$(dirname "${BASH_SOURCE[0]}")/.." && pwd)"
program="${PROGRAM:-$("$root/bench/program" acewiki)}"
work="$(mktemp -d)"
trap 'rm -rf "$work"' EXIT

printf '%9s %8s %8s %9s  %s\n' sentences median worst 'peak KB' summary
for count in 5 200 2000; do
    : >"$work/times"
    for run in 1 2 3 4 5; do
        /usr/bin/time -f '%U %S %M' -a -o "$work/times" "$program" make "$count" 7 >"$work/summary.$run"
        cmp -s "$work/summary.1" "$work/summary.$run" || { echo "make $count 7: two summaries"; exit 1; }
    done
    awk '{ print $1 + $2, $3 }' "$work/times" | sort -n >"$work/sorted"
    read -r median peak < <(sed -n 3p "$work/sorted")
    read -r worst peak < <(tail -1 "$work/sorted")
    printf '%9s %8s %8s %9s  %s\n' "$count" "$median" "$worst" "$peak" "$(tr '\n' ' ' <"$work/summary.1")"
done
