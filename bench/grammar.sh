#!/usr/bin/env bash
# How long it takes to read grammars: the built-in one, and texts of nearly 1 MB, each with the answer and the
# microseconds of processor time of the reading. The texts are comments alone, 500 long rules, one category with very
# many features, one declaration with very many atoms, very many declarations of different features or of one, features
# without a declaration, a rule with very many elements, a variable in features of two different values, and features
# whose many values differ in the last one alone.
set -eu
root="$(cd "$(dirname "${BASH_SOURCE[0]}")/.." && pwd)"
program="$("$root/bench/program" bench)"
work="$(mktemp -d)"
trap 'rm -rf "$work"' EXIT

text() { # KIND
    awk -v kind="$1" 'function letters(n) {
            return substr(abc, int(n / 17576) % 26 + 1, 1) substr(abc, int(n / 676) % 26 + 1, 1) substr(abc, int(n / 26) % 26 + 1, 1) substr(abc, n % 26 + 1, 1)
        }
        BEGIN {
            abc = "abcdefghijklmnopqrstuvwxyz"
            if (kind == "comments") { print "text --> [a]."; for (n = 0; n < 20000; n++) print "% a comment of a line that goes on for some fifty." }
            if (kind == "rules") {
                print "feature num: sg, pl. feature w: word. feature id: position. text --> aaaa [a]."
                for (n = 0; n < 499; n++) {
                    printf "%s(num: N, w: W, id: I) --> [a]", letters(n)
                    for (k = 0; k < 15; k++) printf " > %s(num: N, w: W, id: I)%60s", letters(n * 15 + k), ""
                    print "."
                }
            }
            if (kind == "features") { printf "feature k: p. text --> [a] a(k: p"; for (n = 0; n < 140000; n++) printf ", k: p"; print ")." }
            if (kind == "atoms") { printf "feature k: p"; for (n = 0; n < 160000; n++) printf ", %s", letters(n); print ". text --> [a]." }
            if (kind == "declarations") { for (n = 0; n < 55000; n++) printf "feature %s: p.", letters(n); print "text --> [a]." }
            if (kind == "twice") { for (n = 0; n < 70000; n++) printf "feature k: p."; print "text --> [a]." }
            if (kind == "undeclared") { print "text --> [a]."; for (n = 0; n < 130; n++) { printf "a --> [a]"; for (k = 0; k < 15; k++) { c = n * 15 + k; printf " %s(", letters(c); for (j = 0; j < 16; j++) printf "%s%s: X", (j ? "," : ""), letters(c * 16 + j); printf ")" } print "." } }
            if (kind == "elements") { printf "text --> [a]"; for (n = 0; n < 250000; n++) printf " [a]"; print "." }
            if (kind == "classes") {
                for (n = 0; n < 990; n++) { printf "feature f%d:", n; for (k = 0; k < 330; k++) printf "%s,", substr(letters(k), 3); printf "u%d.", n }
                print " text --> [a]."
            }
            if (kind == "mixed") {
                for (n = 0; n < 900; n++) { printf "feature %s: ", letters(n); for (k = 0; k < 150; k++) printf "%s,", letters(k); printf "%s.", letters(150 + n % 2) }
                printf "text --> [a]"; for (n = 0; n < 14; n++) { printf " %s(", letters(n); for (j = 0; j < 16; j++) printf "%s%s: X", (j ? "," : ""), letters(2 * (n * 16 + j)); printf ")" } print "."
            }
        }'
}

cp "$root/crates/ace_grammar/data/built_in.codeco" "$work/built_in"
for kind in comments rules features atoms declarations twice undeclared elements mixed classes; do
    text "$kind" >"$work/$kind"
done
printf '%14s %9s %14s  %s\n' text bytes microseconds answer
for kind in built_in comments rules features atoms declarations twice undeclared elements mixed classes; do
    "$program" grammar time <"$work/$kind" >"$work/out"
    printf '%14s %9d %14d  %s\n' "$kind" "$(wc -c <"$work/$kind")" "$(tail -1 "$work/out" | cut -d' ' -f1)" "$(head -1 "$work/out")"
done
