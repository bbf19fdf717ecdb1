#!/usr/bin/env bash
# That tools/test tells what its scripts do, in a copy of it, in a folder with a space: some pass, one fails, one lacks a command,
# one can't run here. Other commands stand in for the kit and for apt-get. It needs no program.
set -u
here="$(cd "$(dirname "${BASH_SOURCE[0]}")" && pwd)"
work="$(mktemp -d)"
trap 'rm -rf "$work"' EXIT
copy="$work/a copy"
mkdir -p "$copy/tools" "$copy/tests" "$copy/crates/one/src"
cp "$here/../tools/test" "$copy/tools"
cp "$here/common.sh" "$copy/tests"
rows() { awk '/^scripts=/ { inside = 1; next } /^.$/ { inside = 0 } inside' "$copy/tools/test"; }
rows | while read -r _ name _; do
    echo "echo \"\$1 is the program\"" >"$copy/tests/$name.sh"
done
echo 'echo "limits: expected 5 and came 6"; exit 1' >"$copy/tests/limits.sh"
echo 'echo "curl: curl is missing"; exit 77' >"$copy/tests/curl.sh"
echo 'echo "browser: no screen"; exit 78' >"$copy/tests/browser.sh"

ran() { # WORDS..: runs the copy, and keeps what it tells and its status
    (cd "$work" && PATH="$work:$PATH" RT="$rt" ACEWIKI="${ACEWIKI-/bin/true}" "$copy/tools/test" "$@") >"$work/told" 2>&1 </dev/null
    status=$?
}
rt="$work/none"

expect() { # STATUS PATTERN..: each matches a line, in this order, the last one the last line
    local pattern wanted="$1"
    shift
    [ "$status" = "$wanted" ] || fail "status $wanted"
    tail -n 1 "$work/told" | grep -qE "^${*: -1}$" || fail "the last line ${*: -1}"
    for pattern in "$@"; do
        grep -qE "^$pattern$" "$work/told" || fail "a line $pattern"
    done
}

fail() { # EXPECTED
    echo "runner: $what: expected $1, and came status $status and"
    cat "$work/told"
    exit 1
}

what="all scripts"
ran
count="$(rows | grep -cE '^(beside|alone) ')"
of_the_gate="$(rows | grep -cE '^proofs ')"
expect 1 'passed +kill +[0-9.]+ s' 'FAILED +limits +[0-9.]+ s' '    limits: expected 5 and came 6' 'skipped +curl .*: curl is missing' \
    'skipped +browser .*: no screen' 'not tested on this machine: browser: no screen' "$((count - 3)) passed, 1 failed"
[ "$(grep -cE '^(passed|FAILED|skipped) ' "$work/told")" = "$count" ] || fail "a line for each of $count"
what="scripts by name"
ran kill tests/transcripts.sh
expect 0 'passed +kill +.*' "[1-9] passed, 0 failed"
what="a skipped script alone"
ran curl
expect 0 'skipped +curl .*' '0 passed, 0 failed'
what="the long forms"
ran --long kill memory
expect 0 'passed +kill +.*' 'passed +kill long +.*' 'passed +memory +.*' '3 passed, 0 failed'
for words in "--fly" "fly" "memory" "--jobs 0" "--jobs" "--proofs kill"; do
    what="tools/test $words"
    # Split into words on purpose.
    # shellcheck disable=SC2086
    ran $words
    expect 2 'test: .*; tools/test --help says more'
done
what="the units without the kit"
ran --units
expect 1 'test: --units needs the Rattle kit, .*' '0 passed, 1 failed'
what="the proofs without the kit"
ran --proofs
expect 1 'test: --proofs needs the Rattle kit, .*' '0 passed, 1 failed'
what="no program"
ACEWIKI="$work/none" ran kill
expect 1 "test: there is no program .*" '0 passed, 1 failed'

# With the kit: each call is noted.
rt="$work/a kit"
printf 'one: # a crate\nnone: one\n' >"$copy/crates.txt"
echo '#[test]' >"$copy/crates/one/src/lib.rt"
cat >"$rt" <<END
#!/usr/bin/env bash
echo "rt \$*" >>"$work/calls"
case "\$1" in
try) echo "tests: 1"; exit "\$(cat "$work/try")" ;;
ci) echo proved; echo "7 passed, 1 failed"; exit 1 ;;
esac
END
cat >"$copy/tools/release" <<END
#!/usr/bin/env bash
echo "release \$*" >>"$work/calls"
[ ! -f "$work/stale" ] || { echo "release/ is of other sources"; exit 1; }
END
cat >"$copy/tools/refused" <<END
#!/usr/bin/env bash
echo "refused" >>"$work/calls"
END
echo "exit 1" >"$work/apt-get"
chmod +x "$rt" "$copy/tools/release" "$copy/tools/refused" "$work/apt-get"
what="the units"
echo 0 >"$work/try"
ran --units one kill
expect 0 'passed +kill .*' 'passed +unit tests of one .*' '2 passed, 0 failed'
echo 6 >"$work/try"
ran --units one
expect 1 'FAILED +unit tests of one .*' '    tests: 1' '    status 6' '0 passed, 1 failed'
what="the gate with a stale release/"
touch "$work/stale"
: >"$work/calls"
ran --proofs
expect 1 'FAILED +tools/release --check .*' '    release/ is of other sources' '0 passed, 1 failed'
[ "$(cat "$work/calls")" = "release --check" ] || fail "no other call than release --check, and not $(cat "$work/calls")"
what="the gate"
rm "$work/stale"
: >"$work/calls"
mkdir -p "$copy/crates/acewiki/out"
cp /bin/true "$copy/crates/acewiki/out/acewiki"
ran --proofs
# Of the scripts two fail (one of them is skipped otherwise), and one can't run here.
expect 1 'passed +tools/release --check .*' 'passed +tools/release --check crates/acewiki/out/acewiki .*' 'passed +tools/refused .*' 'FAILED +curl .*' 'skipped +browser .*' \
    'passed +house .*' 'not tested on this machine: browser: no screen' "$((7 + 3 + count + of_the_gate - 3)) passed, 3 failed"
[ "$(tr "\n" , <"$work/calls")" = "release --check,rt ci,release --check crates/acewiki/out/acewiki,refused," ] ||
    fail "release --check, a plain rt ci, release --check PROGRAM and refused, in this order, and not $(cat "$work/calls")"
