#!/usr/bin/env bash
# Sends texts of some 65,000 bytes to `parse` through `acewiki replay`, and ends with status 1 where one isn't refused by
# its name or the wiki isn't as before. $1 is the program.
set -u
. "$(dirname "${BASH_SOURCE[0]}")/common.sh"
work="$(mktemp -d)"
trap 'rm -rf "$work"' EXIT
repeat() { head -c "$1" /dev/zero | sed "s/\x00/$2/g"; }
start='{"k":0,"menu":{"adjective":[],"function":["X","Y","Z","a","an","every","everything","if","no","nothing","something","what","which","who"],"name":["Mary"],"noun":[],"of":[],"verb":[]},"name":"NotSentence","refused":12}'
words='{"done":"words","words":[{"forms":["Mary"],"kind":"name"}]}'
{
    echo '{"do":"word","kind":"name","forms":["Mary"]}'
    echo "{\"do\":\"parse\",\"text\":\"$(repeat 32500 ' a')\"}"
    echo '{"do":"words"}'
    echo "{\"do\":\"parse\",\"text\":\"$(repeat 65000 'a')\"}"
    echo "{\"do\":\"parse\",\"text\":\"$(repeat 65000 ' ')\"}"
    echo '{"do":"words"}'
} >"$work/lines"
{
    echo '{"done":"word"}'
    echo '{"limit":40,"name":"Full","refused":7,"which":"tokens"}'
    echo "$words"
    echo "$start"
    echo "$start"
    echo "$words"
} >"$work/replies"
(compare_replies "$1" "$work/lines" "$work/replies" 0 "long texts") >"$work/told" || { cut -c1-400 "$work/told"; exit 1; }

# Forty tokens that go on but are no sentence yet are told what may follow, as shorter ones of the same shape are, in no time.
nested() { local text="Mary sees a city"; for _ in $(seq "$1"); do text="$text that sees a city"; done; echo "{\"do\":\"parse\",\"text\":\"$text\"}"; }
{
    echo '{"do":"word","kind":"name","forms":["Mary"]}'
    echo '{"do":"word","kind":"noun","forms":["city"]}'
    echo '{"do":"word","kind":"verb","forms":["see"]}'
    nested 2
    nested 9
} >"$work/lines"
timeout 20 "$1" replay <"$work/lines" >"$work/got"
status=$?
short="$(sed -n 4p "$work/got")" long="$(sed -n 5p "$work/got")"
fail() { # WHAT
    echo "long_texts: forty tokens, $(nested 9 | cut -c1-100).., $1 (status $status within 20 s)"
    printf 'their reply\n%s\nthat of twelve\n%s\n' "$long" "$short" | cut -c1-400
    exit 1
}
grep -q '^{"k":40,"menu":{.*"function":\[.*"\.".*"name":"NotSentence","refused":12}$' <<<"$long" || fail "aren't refused as no sentence, with the end among what may follow"
[ "${short/\"k\":12/\"k\":40}" = "$long" ] || fail "have another menu than twelve of the same shape"
