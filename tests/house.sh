#!/usr/bin/env bash
# The rules that the repository keeps for its own text. It needs no program.
set -u
cd "$(dirname "${BASH_SOURCE[0]}")/.." || exit 1
. tests/common.sh
needs python3
status=0

fail() {
    echo "house: $1"
    status=1
}

# Each crate has a line in docs/PROVED.md, and an edit that the gate must see refused where it has more than definitions, tests and
# `main`: one of must-fail/, which rt ci tries, or one of edits/ that names its function, which tools/refused tries.
while read -r crate; do
    grep -q "\`$crate\`" docs/PROVED.md || fail "docs/PROVED.md doesn't speak of $crate"
    case "$crate" in *_examples | bench | acewiki) continue ;; esac
    grep -qw fn "crates/$crate/src/"*.rt || continue
    ls "crates/$crate/must-fail/"*.edit >/dev/null 2>&1 || grep -qs '^function: ' "crates/$crate/edits/"*.edit ||
        fail "$crate has no edit in must-fail/ and none in edits/ that names its function"
done < <(sed 's/#.*//' crates.txt | awk -F: 'NF > 1 { split($1, name, " "); print name[1] }')

# Each claim names the clauses that carry it.
tools/claims --check || fail "a claim names no clause, or another line"

# Each definition that the claims rest on stands in docs/DEFINITIONS.md, and no other.
tools/believed --check || fail "docs/DEFINITIONS.md isn't what tools/believed lists"

# The wiki, the server and the program are proved through the contracts of what they stand on alone.
tools/imports || fail "a definition from inside the chart, the tableau or JSON is named"

# The program serves the files of client/ as they are.
tools/client --check >/dev/null || { tools/client --check | head -n 3; fail "the crates of the editor page aren't of client/"; }

# No line of a definition, a proof or a clause is over 160 columns.
tools/columns --check || fail "a line is too long"

# A script that runs Python asks for it first, so that it is skipped where there is none.
for script in $(grep -lE '(^|exec |timeout .*)python3 ' tests/*.sh); do
    grep -qE '^needs? .*python3|command -v python3' "$script" || fail "$script runs python3 and doesn't ask for it (needs of tests/common.sh)"
done

# A reader of the repository has nothing but the repository.
if command -v git >/dev/null 2>&1; then
    cites=$(git grep -nIE 'scope\.md|theorems\.md|requests\.md|formats\.md|decisions\.md' -- ':!tests/house.sh' 2>/dev/null | head -5)
    [ -z "$cites" ] || fail "a paper is cited that the repository doesn't have: $cites"
fi
exit $status
