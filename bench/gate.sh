#!/usr/bin/env bash
# bench/gate.sh [NAME..]: what each crate costs the gate, in processor minutes: its own proof, its tests, its must-fail edits with
# the runs of its program and tests, and the wrong bodies that name their function, for the crates that are named or for all.
# Each crate is given a new comment in a copy, so that `rt ci NAME` proves it anew and takes what is kept of the crates below:
# run `rt ci` first, else what is proved of those counts too, which is said on standard error. One task is done after another.
set -u
root="$(cd "$(dirname "${BASH_SOURCE[0]}")/.." && pwd)"
cd "$root" || exit 1
names=("$@")
[ $# -gt 0 ] || mapfile -t names < <(sed 's/#.*//' crates.txt | awk -F: 'NF > 1 { split($1, name, " "); print name[1] }')
copy="$(mktemp -d)"
trap 'rm -rf "$copy"' EXIT
mkfifo "$copy/lines"
ticks="$(getconf CLK_TCK)"

spent() { # FROM TO: the minutes between two times in seconds
    awk -v from="$1" -v to="$2" 'BEGIN { printf "%6.1f", (to > from ? to - from : 0) / 60 }'
}

seconds() { # PID: the processor time of a process and of all below it, those that have ended among them
    cat /proc/[0-9]*/stat 2>/dev/null | awk -v top="$1" -v ticks="$ticks" '
        { pid = $1; sub(/^.*\) /, ""); above[pid] = $2; took[pid] = $12 + $13 + $14 + $15 }
        END {
            for (pid in took) {
                for (at = pid; at != top && at in above;) at = above[at]
                if (at == top) sum += took[pid]
            }
            if (top in took) print sum / ticks
        }'
}

named() { # NAME: the processor minutes of its wrong bodies that name their function, over what the last rt ci left here
    tools/refused --jobs 1 "$1" 2>/dev/null | awk 'END { print $NF == "minutes" ? $(NF - 2) : "-" }'
}

printf '%-18s %6s %6s %6s %6s\n' crate proof tests edits bodies
for name in "${names[@]}"; do
    rm -rf "$copy/repository"
    git clone -q . "$copy/repository" && cd "$copy/repository" || exit 1
    for file in lib main; do
        [ ! -f "crates/$name/src/$file.rt" ] || echo "// measured $(date +%s%N)" >>"crates/$name/src/$file.rt"
    done
    RT_JOBS=1 rt ci "$name" >"$copy/lines" 2>&1 &
    rt=$!
    ended=0 proved="" tested=""
    while read -r line; do
        case "$line" in "rt: "* | *" passed, "*) ;; *) continue ;; esac
        now="$(seconds "$rt")"
        ended="${now:-$ended}"
        case "$line" in
        "rt: $name proved") proved="$ended" ;;
        "rt: $name: its tests are proved") tested="$ended" ;;
        "rt: "*" proved") echo "gate.sh: $name: ${line#rt: } too" >&2 ;;
        *"NOT PROVED"*) echo "gate.sh: ${line#rt: }" >&2 ;;
        esac
    done <"$copy/lines"
    wait "$rt" || echo "gate.sh: rt ci $name failed" >&2
    proved="${proved:-$ended}" tested="${tested:-$proved}"
    cd "$root" || exit 1
    printf '%-18s %s %s %s %6s\n' "$name" "$(spent 0 "$proved")" "$(spent "$proved" "$tested")" "$(spent "$tested" "$ended")" "$(named "$name")"
done
