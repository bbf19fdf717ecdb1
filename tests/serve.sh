#!/usr/bin/env bash
# tools/serve as docs/OPERATIONS.md tells it: what it says and when, which signals end what, when the program is started again,
# and what it does with lines that are no requests, with odd file names, with a file that is put in place anew, and with the
# grammar of a new wiki. $1 is the program.
set -u
serve="$(cd "$(dirname "${BASH_SOURCE[0]}")/.." && pwd)/tools/serve"
PROGRAM="$(readlink -f "$1")"
export PROGRAM LC_ALL=C
. "$(dirname "${BASH_SOURCE[0]}")/common.sh"
needs flock setpriv python3
grammars="$(dirname "$(dirname "$serve")")/grammars"
WORK="$(mktemp -d)"
export WORK
cd "$WORK" || exit 1
# The shell tells there of each process that a signal has ended.
exec 2>notices
wiki=''
trap 'kill $wiki $(cat pid 2>/dev/null) 2>/dev/null; rm -rf "$WORK"' EXIT
word='{"do":"word","kind":"name","forms":["Bern"]}'
other_word='{"do":"word","kind":"name","forms":["Basel"]}'

expect() { # WHAT WANTED GOT, where WANTED is a pattern
    # shellcheck disable=SC2053
    [[ $3 == $2 ]] && return
    echo "serve: $1: expected ${2//$'\n'/ | }, came ${3//$'\n'/ | }"
    exit 1
}

# A program that notes its process, and that then is the one that is tried; with FIRST it has other options the first time.
mkdir bin other
cat >program <<'TEXT'
#!/usr/bin/env bash
echo $$ >>"$WORK/pid"
if [ -n "${FIRST-}" ] && [ "$(wc -l <"$WORK/pid")" -eq 1 ]; then
    exec "$PROGRAM" "$@" $FIRST
fi
exec "$PROGRAM" "$@"
TEXT
chmod +x program
export ACEWIKI="$WORK/program"

# Waits until a file has so many lines that begin with `AceWiki: `, and sets `port` by the last one.
wait_for_words() { # WHAT COUNT
    local told
    for _ in {1..400}; do
        told="$(grep '^AceWiki: ' errors)"
        [ "$(grep -c . <<<"$told")" -ge "$2" ] && break
        sleep 0.05
    done
    expect "$1" $'*AceWiki: * at http://127.0.0.1:+([0-9])/; the editor at http://127.0.0.1:+([0-9])/editor; end it with Ctrl-C' "$(cat errors)"
    port="${told##*127.0.0.1:}"
    port="${port%%/*}"
}
shopt -s extglob

start() { # FILE [WORD]..
    rm -f pid
    : >errors
    # A process in the background would ignore the signals of the keyboard.
    (trap - INT QUIT; exec "$serve" "$1" 127.0.0.1:0 "${@:2}") 2>errors &
    wiki=$!
    wait_for_words "a start on $1" 1
}

ask() { # REQUEST
    local response
    exec 3<>"/dev/tcp/127.0.0.1/$port" || return
    printf 'POST /api HTTP/1.1\r\nHost: here\r\nContent-Length: %d\r\n\r\n%s' "${#1}" "$1" >&3
    response="$(cat <&3)"
    exec 3>&-
    echo "${response##*$'\r\n\r\n'}"
}

# Waits for the end of tools/serve and of the program, and sets `status`.
ended() { # WHAT
    local process
    for process in "$wiki" "$(tail -n 1 pid)"; do
        for _ in {1..200}; do
            kill -0 "$process" 2>/dev/null || continue 2
            sleep 0.05
        done
        expect "$1" "an end" "a process that goes on"
    done
    wait "$wiki" 2>/dev/null
    status=$?
}

stop() {
    kill "$wiki"
    ended "a stop"
}

refused() { # WHAT STATUS PATTERN WORD..
    local got
    got="$(timeout 20 "$serve" "${@:4}" 2>&1)"
    expect "$1, the status" "$2" $?
    expect "$1" "$3" "$got"
}

words() {
    refused "no words" 2 "*file*missing*"
    refused "no address" 2 "*address is missing*" wiki
    for address in 8080 127.0.0.1:port 127.0.0.1:65536 --budget -h:80; do
        refused "the address $address" 2 "*$address is no address*" wiki "$address"
    done
    refused "another option" 2 "*--port is no option*" wiki 127.0.0.1:0 --port 80
    refused "a budget without a number" 2 "*--budget takes a number*" wiki 127.0.0.1:0 --budget
    refused "a budget that is too large" 2 "*--budget takes a number*" wiki 127.0.0.1:0 --budget 9999999999999999999
    refused "no events" 2 "*--events takes a number*" wiki 127.0.0.1:0 --events 000
    refused "an option that stands twice" 2 "*--budget stands twice*" wiki 127.0.0.1:0 --budget 1 --budget 1
    refused "a file without a name" 2 "*no name*" "" 127.0.0.1:0
    [ ! -e wiki ] || expect "bad words" "no file" "a file"
    refused "--help" 0 "usage: *example: *" --help
}

files() {
    refused "a folder" 1 "serve: other is no file" other 127.0.0.1:0
    refused "a pipe" 1 "serve: pipe is no file" pipe 127.0.0.1:0
    refused "a folder that isn't there" 1 "serve: none/wiki can't be written: No such file or directory" none/wiki 127.0.0.1:0
    printf '%01000d{' 0 >full
    got="$(trap '' XFSZ; ulimit -f 1; printf '%023d' 0 >>full; timeout 20 "$serve" full 127.0.0.1:0 2>&1)"
    expect "a disk that is full, the status" 1 $?
    expect "a disk that is full" "*serve: full can't be written: its last line gets no newline" "$got"
    start wiki
    refused "a file that is served" 1 "serve: wiki is being served or compacted already" wiki 127.0.0.1:0
    refused "a port that is taken" 5 "*serve: port $port is taken*" second "127.0.0.1:$port"
    refused "an address of another machine" 5 "*serve: this machine can't listen at 192.0.2.1:80" second 192.0.2.1:80
    stop
    # shellcheck disable=SC1003,SC2016
    for name in -n --events ! 'a b' $'two\nlines' '[a]*$(b)\'; do
        start "$name"
        expect "a word in $name" '{"done":"word"}' "$(ask "$word")"
        stop
        expect "the lines of the file $name" 1 "$(wc -l <"./$name")"
    done
}

signals() { # WHAT
    for signal in HUP INT QUIT TERM USR1 KILL; do
        start wiki
        kill -s "$signal" "$wiki"
        ended "$1 $signal"
        expect "$1 $signal, the status" $((128 + $(kill -l "$signal"))) "$status"
        expect "$1 $signal, what is told" "AceWiki: *; end it with Ctrl-C" "$(cat errors)"
    done
    start wiki
    kill -KILL "$(cat pid)"
    ended "$1 the end of the program"
    expect "$1 the end of the program, the status" 137 "$status"
    expect "$1 the end of the program" "*was ended by signal 9" "$(cat errors)"
}

again() { # WHAT
    FIRST='--events 1' start wiki
    # The program may end before the whole request is sent.
    (ask '{"do":"words"}') >/dev/null 2>&1
    wait_for_words "$1 a start after status 0" 2
    expect "$1 a start after status 0" "*the program is started again*" "$(cat errors)"
    expect "$1 the wiki after that" '{"done":"words"*' "$(ask '{"do":"words"}')"
    stop
    start wiki --events 2
    # The program may end before the whole request is sent.
    (ask '{"do":"words"}') >/dev/null 2>&1
    ended "$1 an end after events"
    expect "$1 an end after events, the status and how often it was started" "0 1" "$status $(wc -l <pid)"
    printf '#!/bin/sh\nexit 9\n' >bin/ends
    printf '#!/bin/sh\nexit 0\n' >bin/ends_at_once
    chmod +x bin/ends bin/ends_at_once
    ACEWIKI="$WORK/bin/ends" refused "$1 another status" 9 "*ended with status 9*" wiki 127.0.0.1:0
    ACEWIKI="$WORK/bin/ends_at_once" refused "$1 a program that never listens" 1 "*without having listened" wiki 127.0.0.1:0
    ACEWIKI="$WORK/bin/none" refused "$1 no program" 127 "*can't be run" wiki 127.0.0.1:0
}

# What tools/serve says of the lines of a file, and that a word that is added then is a line of its own.
lines() { # WHAT PATTERN
    start lines
    expect "$1" "${2}AceWiki: *" "$(cat errors)"
    expect "$1, a word" '{"done":"word"}' "$(ask "$word")"
    stop
    expect "$1, the journal" "*Bern*" "$(tail -n 1 lines)"
    start lines
    expect "$1, the word after a start" '*Bern*' "$(ask '{"do":"words"}')"
    stop
}

bad_lines() {
    { echo "$other_word"; head -c 100 /dev/zero; } >lines
    lines "bytes of 0 at the end" $'serve: the last line of lines is cut off: its 100 bytes change nothing\n'
    printf '%s\n%s' "$other_word" '{"do":"add","text":"}' >lines
    lines "a last line that is cut" $'serve: the last line of lines is cut off: its 21 bytes change nothing\n'
    printf '%s' "$other_word" >lines
    lines "a last line that lacks its newline alone" ''
    expect "the words then" 2 "$(wc -l <lines)"
    printf '%s\n\n \t\r\n{}x\n%s\n' "$other_word" '{"a":[1,{"b":"\\u00e9 }"}],"c":null}' >lines
    lines "a line in the middle" $'serve: line 4 of lines is no request: it changes nothing\n'
    # shellcheck disable=SC2016
    printf '%s\n' '[]' '{"a":01}' '{"a":"b}' '{"a":1}{"a":1}' '{"a":1,}' '{"a":tru}' '{a:1}' >lines
    lines "many such lines" $'*line 5 of lines is no request: it changes nothing\nserve: nor are 2 further lines\n'
    { printf '{"do":"'; head -c 65527 /dev/zero | tr '\0' x; printf '"}\n'; } >lines
    lines "a line that is too long" $'serve: line 1 of lines *\n'
    sed -i '1s/x"/"/; 2d' lines
    lines "a line that isn't" ''
}

# Another file gets the name after tools/serve has opened the first, and before it has the lock.
put_in_place() {
    printf '%s\n' "$other_word" >new
    : >old
    printf '#!/bin/sh\n[ ! -e new ] || mv new old\nexec "%s" "$@"\n' "$(command -v flock)" >bin/flock
    chmod +x bin/flock
    PATH="$WORK/bin:$PATH" start old
    rm bin/flock
    expect "a file that is put in place" '*Basel*' "$(ask '{"do":"words"}')"
    expect "a word in it" '{"done":"word"}' "$(ask "$word")"
    stop
    expect "its lines" 2 "$(wc -l <old)"
}

# A wiki that begins with a grammar has it at each start. Only a file without a line can.
grammar() {
    refused "a grammar without a name" 2 "*--grammar takes the name*" begun 127.0.0.1:0 --grammar
    refused "two grammars" 2 "*--grammar stands twice*" begun 127.0.0.1:0 --grammar one --grammar other
    [ ! -e begun ] || expect "bad words of a grammar" "no file" "a file"
    refused "a grammar that isn't there" 1 "*./none can't be read: No such file or directory" begun 127.0.0.1:0 --grammar none
    echo 'text --> .' >-bad
    refused "a grammar with a fault" 1 "serve: the wiki doesn't take the grammar of ./-bad, and answers {*\"refused\"*}" begun 127.0.0.1:0 --grammar -bad
    expect "the file then" 0 "$(wc -c <begun)"
    start begun --grammar "$grammars/english-more.codeco"
    expect "a word of the grammar" '{"name":"Reserved","refused":4,"text":"each"}' "$(ask "${word/Bern/each}")"
    expect "a word" '{"done":"word"}' "$(ask "$word")"
    stop
    expect "the first line" same "$(cmp -s <(head -n 1 begun) <("$(dirname "$serve")/grammar" "$grammars/english-more.codeco") && echo same)"
    expect "the lines" 2 "$(wc -l <begun)"
    start begun
    expect "a word of the grammar after a start" '*"Reserved"*' "$(ask "${word/Bern/each}")"
    stop
    refused "a grammar behind lines" 1 "serve: begun has lines already, and --grammar begins a new wiki" begun 127.0.0.1:0 --grammar "$grammars/english.codeco"
    expect "the lines then" 2 "$(wc -l <begun)"
}

mkfifo pipe
words
grammar
files
signals "with setpriv,"
again "with setpriv,"
bad_lines
put_in_place
printf '#!/bin/sh\nexit 1\n' >bin/setpriv
chmod +x bin/setpriv
PATH="$WORK/bin:$PATH"
signals "without setpriv,"
again "without setpriv,"
