#!/usr/bin/env bash
# Makes generated wikis with the least and the most counts, with long seeds and with small budgets, and ends with status 1 where
# a summary or a status is another one. $1 is the program.
set -u
program="$1"
summary() { "$program" make "$@" 2>&1 | tr '\n' ' '; }
other() { # WORDS GOT EXPECTED
    echo "make: 'make $1' tells"
    echo "$2"
    echo "and not"
    echo "$3"
    exit 1
}
expect() { # WORDS SUMMARY, where a word `..` of the summary stands for any
    local got
    # Split into words on purpose.
    # shellcheck disable=SC2086
    got="$(summary $1)"
    # shellcheck disable=SC2254
    case "$got" in ${2//../*}) ;; *) other "$1" "$got" "$2" ;; esac
}

expect "5 7" "words 50 sentences 5 asserted 4 red 0 outside 0 questions 1 answers 0 unknown 0 "
expect "200 7" "words 50 sentences 200 asserted 160 red 0 outside 0 questions 40 answers 5 unknown 0 "
expect "2000 7" "words 50 sentences 2000 asserted 1600 red 0 outside 0 questions 400 answers 725 unknown 0 "
# Seed 65,544 leaves 7 by 65,537, and so draws what seed 7 draws.
expect "200 65544" "$(summary 200 7)"
expect "1 0" "words 50 sentences 1 asserted 1 red 0 outside 0 questions 0 answers 0 unknown 0 "
expect "20 9999999999999999999" "words 50 sentences 20 asserted 16 red 0 outside 0 questions 4 answers .. unknown 0 "
for refused in "0 7" "2001 7" "5 99999999999999999999" "5 -1" "5" "" "5 7 --budget" "5 7 --budget 1000000001"; do
    # shellcheck disable=SC2086
    "$program" make $refused >/dev/null 2>&1
    status=$?
    [ "$status" = 2 ] || other "$refused" "status $status" "status 2"
done
# Whatever the budget, each statement is asserted or red, and each question is one.
for budget in 0 1; do
    got="$(summary 200 7 --budget "$budget")"
    awk '{ exit !($4 == 200 && $6 + $8 == 160 && $10 == 0 && $12 == 40) }' <<<"$got" ||
        other "200 7 --budget $budget" "$got" "200 sentences, 160 of them asserted or red, none outside, and 40 questions"
done
