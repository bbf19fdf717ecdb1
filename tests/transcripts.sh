#!/usr/bin/env bash
# Runs what a document shows of lines and replies through `acewiki replay`, each in a wiki of its own, and ends with status 1
# where a reply is another one: each table of lines and replies, and each block that begins with `$ ./acewiki replay`, where a
# reply stands below its line. A block may begin with `$ cat FILE - | ./acewiki replay` and a line `..`, which stands for the
# replies to the lines of that file. A block that begins with `$ ./acewiki WORDS <<END` has the input up to a line `END`, and then what
# is written on both outputs. A block of lines without a command is refused. $1 is the program, $2 the document.
set -u
here="$(cd "$(dirname "${BASH_SOURCE[0]}")" && pwd)"
. "$here/common.sh"
work="$(mktemp -d)"
trap 'rm -rf "$work"' EXIT
awk -v work="$work" '
    /^\| Line \| Reply \|$/ { name = work "/" sprintf("%03d", ++count); table = 1; print "the table at line " NR > (name ".title"); next }
    !/^\|/ { table = 0 }
    table && /^\| `/ {
        split($0, cell, /` \| `|^\| `|` \|$/)
        print cell[2] > (name ".lines")
        print cell[3] > (name ".replies")
    }
    /^```/ { fence = !fence; block = 0; given = 0 }
    fence && /^\$ \.\/acewiki .* <<END$/ {
        name = work "/" sprintf("%03d", ++count); given = 1
        print "the block at line " NR > (name ".title")
        sub(/^\$ \.\/acewiki /, ""); sub(/ <<END$/, "")
        print > (name ".words")
        printf "" > (name ".given"); printf "" > (name ".written")
        next
    }
    given == 1 && $0 == "END" { given = 2; next }
    given { print > (name (given == 1 ? ".given" : ".written")); next }
    fence && !block && /^{"do":/ { print "the block at line " NR " of " FILENAME " has lines and no command" > (work "/wrong"); exit }
    /^\$ .*\.\/acewiki replay$/ {
        name = work "/" sprintf("%03d", ++count); block = 1; is_reply = 0
        print "the block at line " NR > (name ".title")
        if ($2 == "cat") { print $3 > (name ".before"); is_reply = 1 }
        next
    }
    block && $0 == ".." { is_reply = 0; next }
    block { print > (name (is_reply ? ".replies" : ".lines")); is_reply = !is_reply }' "$2"
[ ! -f "$work/wrong" ] || { echo "transcripts: $(cat "$work/wrong")"; exit 1; }
count=0
for title in "$work"/*.title; do
    name="${title%.title}" before=0
    if [ -f "$name.words" ]; then
        # The words of a command are words of the shell.
        # shellcheck disable=SC2046
        "$1" $(cat "$name.words") <"$name.given" >"$work/came" 2>&1
        cmp -s "$work/came" "$name.written" || {
            echo "transcripts: $(cat "$title") of $2: the command writes something else"
            diff "$name.written" "$work/came"
            exit 1
        }
        count=$((count + 1))
        continue
    fi
    if [ -f "$name.before" ]; then
        file="$here/../$(cat "$name.before")"
        before="$(wc -l <"$file")" || exit 1
        cat "$file" "$name.lines" >"$name.all"
        mv "$name.all" "$name.lines"
    fi
    compare_replies "$1" "$name.lines" "$name.replies" "$before" "$(cat "$title") of $2"
    count=$((count + 1))
done
[ "$count" -gt 0 ] || { echo "transcripts: no table and no block in $2"; exit 1; }
