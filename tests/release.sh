#!/usr/bin/env bash
# Tries which program ./acewiki runs and what tools/release says of release/, in small copies of the repository outside it, whose
# program has the bytes of $1: each program, manifest and source that isn't right is refused by its sentence, and `rt` (another
# command stands in for it here) is called exactly where no program is of the sources. The status is 1 where that isn't so.
set -u
[ $# -ge 1 ] || { echo "usage: tests/release.sh PROGRAM" >&2; exit 2; }
given="$(realpath "$1")"
root="$(cd "$(dirname "${BASH_SOURCE[0]}")/.." && pwd)"
work="$(mktemp -d)"
trap 'chmod -R u+w "$work"; rm -rf "$work"' EXIT
chmod 755 "$work"
program=release/acewiki-x86_64-linux
manifest=release/MANIFEST
unset ACEWIKI
export RT="$work/rt" CALLS="$work/calls" GIVEN="$given"

fail() {
    echo "release: $1"
    exit 1
}

for command in cmp:diffutils find:findutils od:coreutils; do
    command -v "${command%:*}" >/dev/null || { echo "release: not run, since ${command%:*} is missing (Debian's package ${command#*:})"; exit 77; }
done

# Stands in for the kit: it notes each call, and "builds" the bytes of the program that was given.
cat >"$RT" <<'END'
#!/usr/bin/env bash
echo "$1" >>"$CALLS"
case "$1" in
version) echo "a kit of the test" ;;
run) sleep 1; mkdir -p out; cp "$GIVEN" out/acewiki; [ -z "${MEDDLE:-}" ] || echo "// more" >>"$MEDDLE" ;;
ci)
    mkdir -p crates/acewiki/out
    cp "$GIVEN" crates/acewiki/out/acewiki
    [ -z "${MEDDLE:-}" ] || echo "// more" >>"$MEDDLE"
    echo "${RESULT:-3 passed, 0 failed}"
    ;;
esac
END
chmod +x "$RT"

# Writes the manifest of the program of a copy, as it is now.
describe() {
    local sum
    sum="$(sha256sum <"$1/$program")"
    {
        printf '%s\n' "built by: a kit of the test" "loader: /lib64/ld-linux-x86-64.so.2" "oldest glibc: 2.34" "processor: x86-64-v2"
        printf '%s\n' "bytes: $(wc -c <"$1/$program")" "SHA-256 of the sources: $("$1/tools/sources")" "SHA-256 of the program: ${sum%% *}"
    } >"$1/$manifest"
}

# A repository of three crates, of which the program stands on one, in a folder with a space in its name.
first="$work/the first"
make_first() {
    local crate part
    mkdir -p "$first/tools" "$first/release" "$first/crates/acewiki/must-fail"
    cp "$root/acewiki" "$first"
    cp "$root"/tools/{release,sources,prove} "$first/tools"
    printf '# the crates\nlow:\nacewiki: low memchr # the program\naside: low\n' >"$first/crates.txt"
    echo "Handles allowed: Net." >"$first/HANDLES"
    for crate in low acewiki aside; do
        for part in src specs proofs; do
            mkdir -p "$first/crates/$crate/$part/inner"
            echo "// $part of $crate" >"$first/crates/$crate/$part/one.rt"
            echo "// more $part of $crate" >"$first/crates/$crate/$part/inner/two.rt"
        done
    done
    cp "$given" "$first/$program"
    chmod 755 "$first/$program"
    describe "$first"
}

# Makes a copy anew and prints its path.
copy() {
    rm -rf "$work/a copy"
    cp -r "$first" "$work/a copy"
    rm -rf "$work/a copy/crates/acewiki/out"
    echo "$work/a copy"
}

# tools/release --check in a copy, behind a command that changes it there, must say this; with no sentence it must be content.
checks() {
    local change="$1" sentence="$2" at said status
    shift 2
    at="$(copy)"
    (cd "$at" && eval "$change") || fail "the copy can't be changed by: $change"
    said="$("$at/tools/release" --check "$@" 2>&1)"
    status=$?
    if [ -z "$sentence" ]; then
        [ "$status" -eq 0 ] || fail "--check refuses a right release after '$change': $said"
    else
        [ "$status" -eq 1 ] || fail "--check has status $status after '$change'"
        [ "$said" = "$sentence" ] || fail "--check says after '$change': $said; not: $sentence"
    fi
    [ ! -e "$at/crates/acewiki/out" ] || fail "--check writes something after '$change'"
}

programs_and_manifests() {
    local size lines
    size="$(wc -c <"$given")"
    checks true ""
    checks true "" "$given"
    checks true "release: $RT has other bytes than $program" "$RT"
    checks true "release: there is no $work/nothing" "$work/nothing"
    checks "rm $program" "release: there is no $program"
    checks "rm $manifest" "release: there is no $manifest"
    checks "rm -r release" "release: there is no $program"
    checks "rm $program; mkdir $program" "release: $program can't be read"
    checks "chmod -x $program" "release: $program isn't executable (chmod +x $program)"
    checks "truncate -s $((size - 1)) $program" "release: $program has $((size - 1)) bytes in place of $size"
    checks "truncate -s 0 $program" "release: $program is no program for x86-64"
    checks "printf '\\377' | dd of=$program bs=1 seek=$((size / 2)) conv=notrunc status=none; printf '\\376' | dd of=$program bs=1 seek=$((size - 1)) conv=notrunc status=none" "release: $program has other bytes than $manifest tells"
    # a program for ARM, with a manifest of its own
    checks "printf '\\267' | dd of=$program bs=1 seek=18 conv=notrunc status=none; describe ." "release: $program is no program for x86-64"
    checks "cp $RT $program; describe ." "release: $program is no program for x86-64"
    for lines in 0 1 6; do
        checks "head -n $lines $manifest >it; cp it $manifest" "release: $manifest isn't a whole manifest"
    done
    checks "truncate -s -1 $manifest" "release: $manifest isn't a whole manifest"
    checks "truncate -s -9 $manifest" "release: $manifest isn't a whole manifest"
    checks "echo more >>$manifest" "release: $manifest isn't a whole manifest"
    checks "sed -i 's/^\\(SHA-256 of the sources: \\).*/\\1$(printf '%064d' 0)/' $manifest" "release: $manifest is of other sources than those that stand here"
}

sources() {
    local change others="release: $manifest is of other sources than those that stand here"
    for change in "echo '// a comment' >>crates/acewiki/src/one.rt" "echo '// a comment' >>crates/low/proofs/inner/two.rt" \
        "echo >crates/low/specs/new.rt" "rm crates/low/src/one.rt" "mv crates/low/src/one.rt crates/low/src/other.rt" \
        "mkdir crates/low/src/deep; mv crates/low/src/one.rt crates/low/src/deep" "echo 'Handles allowed: none.' >HANDLES" \
        "sed -i 's/^low:/low: memchr/' crates.txt" "sed -i 's/ # the program//' crates.txt" "sed -i 's/^acewiki:/& aside/' crates.txt"; do
        checks "$change" "$others"
    done
    for change in "echo '// a comment' >>crates/aside/src/one.rt" "echo >crates/acewiki/must-fail/one.edit" "echo >README.md" \
        "sed -i 's/^aside:.*//' crates.txt" "sort -o crates.txt crates.txt" "touch crates/low/src/one.rt" "mkdir crates/low/src/empty"; do
        checks "$change" ""
    done
    checks "rm -r crates/low/src" "sources: crates/low/src is missing"
    checks "rm crates.txt" "sources: there is no crates.txt"
    checks "rm HANDLES" "sources: there is no HANDLES"
    checks "sed -i '/^acewiki/d' crates.txt" "sources: crates.txt has no line of acewiki"
    checks "ln -s one.rt crates/low/src/link.rt" "sources: crates/low/src/link.rt is no plain file"
}

# ./acewiki in a copy must run the program of that path, without a call of rt.
runs() {
    rm -f "$CALLS"
    [ "$("$1/acewiki" --program 2>&1)" = "$1/$2" ] || fail "$3: ./acewiki doesn't run $2: $("$1/acewiki" --program 2>&1)"
    [ "$("$1/acewiki" help 2>&1)" = "$("$given" help)" ] || fail "$3: ./acewiki help is another text"
    [ ! -e "$CALLS" ] || fail "$3: rt was called"
}

# ./acewiki in a copy, without the kit, must end with status 1 and begin with these words.
says() {
    local said status
    said="$(RT="$work/no rt" "$1/acewiki" help 2>&1)"
    status=$?
    [ "$status" -eq 1 ] || fail "$3: ./acewiki has status $status: $said"
    [[ "$said" == "acewiki: $2"* ]] || fail "$3: ./acewiki says: $said; not: $2"
}

# ./acewiki in a copy, behind a command that changes it there, must say why its release isn't run.
refuses() {
    local at
    at="$(copy)"
    (cd "$at" && eval "$1") || fail "the copy can't be changed by: $1"
    says "$at" "$2, and rt is missing, which proves and builds a program" "$1"
}

choices() {
    local at
    at="$(copy)"
    runs "$at" "$program" "a fresh copy"
    ln -s "$at/acewiki" "$work/link"
    (cd / && [ "$("$work/link" help)" = "$("$given" help)" ]) || fail "by a link ./acewiki does something else"
    { echo "$program" && cat "$at/$manifest"; } | cmp -s - <("$at/acewiki" --version) || fail "--version tells something else"
    "$at/acewiki" --help | grep -q '^acewiki serve ADDRESS' || fail "--help doesn't tell the commands"
    "$at/acewiki" --version more >/dev/null 2>&1
    [ $? -eq 2 ] || fail "--version with another word isn't left to the program"
    refuses "rm -r release" "there is no $program"
    refuses "rm $manifest" "there is no $manifest"
    refuses "chmod -x $program" "$program isn't executable (chmod +x $program)"
    refuses "truncate -s 100 $program" "$program has 100 bytes in place of $(wc -c <"$given")"
    refuses "head -n 3 $manifest >it; mv it $manifest" "$manifest isn't a whole manifest"
    refuses "echo '// a comment' >>crates/low/src/one.rt" "$manifest is of other sources than those that stand here"
    at="$(copy)"
    # a loader that no machine has
    sed -i 's|/lib64/ld-linux-x86-64.so.2|/lib64/ld-linux-x86-64.so.X|' "$at/$program"
    (cd "$at" && describe .)
    says "$at" "$program doesn't run on this machine. It needs Linux on x86-64 and" "a program for another machine"
}

# Two starts at once on fresh copies, and starts that may write nothing.
side_by_side() {
    local at before number user=()
    at="$(copy)"
    for number in 1 2; do "$at/acewiki" help >"$work/said.$number" 2>&1 & done
    wait
    for number in 1 2; do cmp -s "$work/said.$number" <("$given" help) || fail "of two starts at once, one says: $(cat "$work/said.$number")"; done
    at="$(copy)"
    chmod -R a-w "$at"
    [ "$(id -u)" -ne 0 ] || user=(setpriv --reuid=65534 --regid=65534 --clear-groups)
    before="$(cd "$at" && find . -printf '%p %T@ %C@\n')"
    [ "$("${user[@]}" "$at/acewiki" help 2>&1)" = "$("$given" help)" ] || fail "a copy that can't be written isn't run: $("${user[@]}" "$at/acewiki" help 2>&1)"
    "${user[@]}" "$at/tools/release" --check >/dev/null || fail "a copy that can't be written isn't checked"
    [ "$before" = "$(cd "$at" && find . -printf '%p %T@ %C@\n')" ] || fail "a copy that can't be written was changed"
    chmod -R u+w "$at"
}

# A choice that was kept holds no longer where anything has changed, though its time and size are as before.
kept() {
    local at others="$manifest is of other sources than those that stand here"
    for at in "$work/kept "{1..4}; do
        runs "$at" "$program" "a copy"
        [ -s "$at/crates/acewiki/out/acewiki.start" ] || fail "the choice of a start isn't kept"
        runs "$at" "$program" "a second start"
    done
    at="$work/kept 1/crates/low/src/one.rt"
    touch -r "$at" "$work/time"
    tr '[:lower:]' '[:upper:]' <"$at" >"$work/text"
    cat "$work/text" >"$at"
    touch -r "$work/time" "$at"
    says "$work/kept 1" "$others" "a source that is changed, of the same size and time"
    rm "$work/kept 2/crates/low/proofs/inner/two.rt"
    says "$work/kept 2" "$others" "a source that is removed"
    echo >"$work/kept 3/crates/acewiki/specs/new.rt"
    says "$work/kept 3" "$others" "a source that is added"
    truncate -s 100 "$work/kept 4/$program"
    says "$work/kept 4" "$program has 100 bytes in place of $(wc -c <"$given")" "a program that is cut"
}

# Where no program is of the sources one is proved and built, once, and runs from then on.
building() {
    local at number
    at="$(copy)"
    echo '// a comment' >>"$at/crates/low/src/one.rt"
    rm -f "$CALLS"
    for number in 1 2; do "$at/acewiki" help >"$work/said.$number" 2>"$work/told.$number" & done
    wait
    for number in 1 2; do cmp -s "$work/said.$number" <("$given" help) || fail "a program that is built first isn't run: $(cat "$work/told.$number")"; done
    [ "$(grep -c run "$CALLS")" -eq 1 ] || fail "two starts at once build the program twice"
    grep -q lib "$CALLS" || fail "the libraries aren't proved"
    cat "$work/told".? | grep -q 'one to two hours' || fail "it isn't told how long it takes to prove and build"
    cat "$work/told".? | grep -q 'is of other sources' || fail "it isn't told why a program is built"
    runs "$at" crates/acewiki/out/acewiki "a program that was built here"
    echo more >>"$at/crates/acewiki/out/acewiki"
    says "$at" "$manifest is of other sources" "a program of other bytes than those that were built here"
    MEDDLE="$at/crates/low/src/one.rt" "$at/acewiki" help >"$work/said.1" 2>&1 && fail "sources that change while they are proved are no fault"
    grep -q 'the sources changed' "$work/said.1" || fail "sources that change while they are proved: $(cat "$work/said.1")"
    says "$at" "$manifest is of other sources" "a program of sources that changed meanwhile"
}

# What tools/release writes, and where it writes nothing.
writing() {
    local at before result
    at="$(copy)"
    rm -r "$at/release"
    for result in "2 passed, 1 failed" "3 passed, 0 failed (low and the crates below alone: not the gate)" "0 passed, 0 failed"; do
        RESULT="$result" "$at/tools/release" >/dev/null 2>&1 && fail "tools/release writes after: $result"
    done
    MEDDLE="$at/crates/low/src/one.rt" "$at/tools/release" >"$work/said" 2>&1 && fail "tools/release writes though the sources changed"
    grep -q 'the sources changed while' "$work/said" || fail "tools/release says: $(tail -n 1 "$work/said")"
    RT="$work/no rt" "$at/tools/release" >"$work/said" 2>&1 && fail "tools/release needs no rt"
    [ ! -e "$at/release" ] || fail "tools/release leaves something where it writes nothing"
    "$at/tools/release" >"$work/said" 2>&1 || fail "tools/release says: $(tail -n 1 "$work/said")"
    cmp -s "$given" "$at/$program" || fail "tools/release writes another program"
    grep -q '^built by: a kit of the test$' "$at/$manifest" || fail "the manifest doesn't tell the kit"
    before="$(find "$at/release" -printf '%p %T@ %C@ %m\n')"
    "$at/tools/release" >"$work/said" 2>&1 || fail "tools/release, run again, says: $(tail -n 1 "$work/said")"
    [ "$before" = "$(find "$at/release" -printf '%p %T@ %C@ %m\n')" ] || fail "tools/release, run again, changes something"
}

make_first
for number in 1 2 3 4; do cp -r "$first" "$work/kept $number"; done
made=$SECONDS
programs_and_manifests
sources
choices
side_by_side
while [ $((SECONDS - made)) -lt 4 ]; do sleep 0.2; done
kept
if ! command -v python3 >/dev/null; then
    echo "release: tools/release wasn't run, since python3 is missing (Debian's package python3)"
    exit 77
fi
building
writing
