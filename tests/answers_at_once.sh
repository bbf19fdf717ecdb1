#!/usr/bin/env bash
# Sends each line over a pipe only after the reply to the line before has come, and ends with status 1 where a reply
# doesn't come within ten seconds, or is another one. $1 is the program.
set -u
coproc WIKI { "$1" replay; }
ask() { # LINE REPLY
    printf '%s\n' "$1" >&"${WIKI[1]}"
    if ! IFS= read -r -t 10 reply <&"${WIKI[0]}"; then
        echo "answers_at_once: no reply within ten seconds to $1, and not $2"
        exit 1
    fi
    if [ "$reply" != "$2" ]; then
        echo "answers_at_once: the reply to $1 is $reply and not $2"
        exit 1
    fi
}
ask '{"do":"word","kind":"name","forms":["Bern"]}' '{"done":"word"}'
ask '{"do":"find","word":"Bern"}' '{"done":"find","word":{"forms":["Bern"],"kind":"name"}}'
ask '{"do":"fly"}' '{"name":"BadRequest","refused":0}'
ask '{"do":"words"}' '{"done":"words","words":[{"forms":["Bern"],"kind":"name"}]}'
