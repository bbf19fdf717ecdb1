#!/usr/bin/env bash
# The front for groups and the package (docs/OPERATIONS.md): front.py says what must hold of tools/front, and a package of the
# files that stand here is made twice, which gives the same bytes. $1 is the program; with `install` as $2 that package is
# installed instead, upgraded over a wiki and purged, by the commands of the document, which root alone can, and what its unit
# runs is run. Where a command is missing the status is 77; where Chromium doesn't start, the pages are not opened in it.
set -u
here="$(cd "$(dirname "${BASH_SOURCE[0]}")" && pwd)"
. "$here/common.sh"
export PATH="$PATH:/usr/sbin:/sbin"
needs python3 nginx openssl curl setpriv flock git dpkg-deb xz
program="$(readlink -f "$1")"
root="$(dirname "$here")"
work="$(mktemp -d)"
chmod 755 "$work"
name="test$$"
installed=''

# shellcheck disable=SC2317
clean() {
    # shellcheck disable=SC2046
    kill $(jobs -p) 2>/dev/null
    if [ -n "$installed" ]; then
        dpkg --purge acewiki >/dev/null 2>&1
        rm -rf "/etc/acewiki/$name."* "/var/lib/acewiki/$name"
        rmdir /etc/acewiki /var/lib/acewiki 2>/dev/null
    fi
    rm -rf "$work"
}
trap clean EXIT

fail() {
    echo "front: $1"
    exit 1
}

expect() { # WHAT WANTED GOT
    [ "$2" = "$3" ] || fail "$1: expected $2, came $3"
}

if [ "${2:-}" != install ]; then
    # What everybody can read, as the package has it; tools/serve takes the program beside it.
    unset ACEWIKI
    mkdir "$work/library"
    cp "$program" "$work/library/acewiki"
    cp -r "$root/tools" "$root/deploy" "$work/library/"
    chmod -R a+rX "$work/library"
    browser=''
    export HOME="$work"
    if command -v chromium >/dev/null && command -v chromedriver >/dev/null && timeout 60 chromium --headless=new --no-sandbox --disable-gpu --dump-dom about:blank >/dev/null 2>&1; then
        browser=browser
    else
        echo "front: no page was opened in a browser, since this machine has no Chromium that starts (Debian: apt-get install chromium chromium-driver)"
    fi
    python3 "$here/front.py" "$work/library" $browser || exit 1
fi

# ---- the unit

if command -v systemd-analyze >/dev/null; then
    mkdir "$work/unit"
    sed 's|/usr/bin/acewiki-front|/bin/true|' "$root/deploy/acewiki@.service" >"$work/unit/acewiki@x.service"
    told="$(systemd-analyze verify "$work/unit/acewiki@x.service" 2>&1)" || fail "the unit: $told"
    told="$(systemd-analyze security --offline=yes --no-pager "$work/unit/acewiki@x.service" 2>/dev/null | sed -n 's/.*exposure level for .*: \([0-9.]*\).*/\1/p')"
    awk -v level="$told" 'BEGIN { exit !(level != "" && level < 2.0) }' || fail "the unit's exposure is $told, and not below 2.0"
fi

# ---- the package, from a checkout of its own, so that nothing has changed since its commit

git="git -c user.name=test -c user.email=test@localhost -c init.defaultBranch=main -c core.autocrlf=false"
mkdir "$work/checkout"
tar -C "$root" --exclude=out --exclude=.git --exclude=wiki.jsonl -cf - . | tar -C "$work/checkout" -xf -
# shellcheck disable=SC2086
(cd "$work/checkout" && $git init -q && $git add -A && GIT_COMMITTER_DATE='2026-01-01T00:00:00Z' $git commit -q -m one --date '2026-01-01T00:00:00Z') || fail "no checkout can be made"
if ! told="$("$work/checkout/tools/release" --check 2>&1)"; then
    fail "a package needs a release: $told"
fi
mkdir "$work/once" "$work/twice" "$work/later" "$work/tree"
package="$("$work/checkout/tools/package" --out "$work/once")" || fail "no package can be made"
(cd "$work/checkout" && find . -type f -exec touch {} + && umask 077 && tools/package --out "$work/twice" >/dev/null) || fail "no second package can be made"
cmp -s "$package" "$work/twice/"*.deb || fail "two packages of one commit have other bytes"
expect "the version" "0~20260101000000.$(git -C "$work/checkout" rev-parse HEAD | cut -c1-12)" "$(dpkg-deb -f "$package" Version)"
case "$(dpkg-deb -f "$package" Depends)" in *nginx-light*) ;; *) fail "the package doesn't depend on nginx-light" ;; esac
dpkg-deb -x "$package" "$work/tree"
cmp -s "$work/tree/usr/lib/acewiki/acewiki" "$root/release/acewiki-x86_64-linux" || fail "the package has another program than release/"
grep -q "^commit: $(git -C "$work/checkout" rev-parse HEAD)$" "$work/tree/usr/share/doc/acewiki/PROVED" || fail "the package doesn't name its commit"
grep -q "^$(grep '^built by' "$root/release/MANIFEST")$" "$work/tree/usr/share/doc/acewiki/PROVED" || fail "the package doesn't name its kit"
echo change >>"$work/checkout/README.md"
told="$("$work/checkout/tools/package" --out "$work/later" 2>&1)" && fail "a package is made of files that have changed"
case "$told" in *"have changed since the commit"*) ;; *) fail "files that have changed: $told" ;; esac

# Starts what the unit starts, and waits until it tells where the wiki is. What stands outside is below $1.
exec_start() { # PREFIX USER CONFIGURATION ERRORS
    local words=() word line
    line="$(sed -n 's/^ExecStart=//p' "$1/lib/systemd/system/acewiki@.service")"
    # shellcheck disable=SC1090
    ADDRESS="$(sed -n 's/^ADDRESS=//p' "$3")" OPTIONS="$(sed -n 's/^OPTIONS=//p' "$3")"
    for word in $line; do
        # shellcheck disable=SC2016,SC2206
        case "$word" in
        '$ADDRESS') words+=("$ADDRESS") ;;
        '$OPTIONS') words+=($OPTIONS) ;;
        /usr/*) words+=("$1$word") ;;
        *) words+=("${word//%i/$name}") ;;
        esac
    done
    "${as_user[@]}" "${words[@]}" 2>"$4" &
    front=$!
    for _ in {1..600}; do
        grep -q '^AceWiki: ' "$4" && return
        kill -0 "$front" 2>/dev/null || break
        sleep 0.1
    done
    fail "what the unit runs doesn't start: $(cat "$4")"
}

stop_front() {
    kill -TERM "$front"
    wait "$front"
    expect "the status after TERM" 143 $?
}

ask() { # USER REQUEST
    curl -s --cacert "$certificate" -u "$1" -d "$2" -w ' %{http_code}' "https://localhost:$port/api"
}

if [ "${2:-}" != install ] || [ "$(id -u)" != 0 ]; then
    [ "${2:-}" != install ] || echo "front: the package was not installed, which root alone can"
    exit 0
fi
if dpkg -s acewiki >/dev/null 2>&1 || [ -e /etc/acewiki ] || [ -e /var/lib/acewiki ]; then
    fail "this machine has the package acewiki, or what it serves, and both are left alone"
fi

# The commands of the document, from the one that makes the package, with names and ports of this test. systemd, where it runs,
# isn't given a unit of a test; what the unit runs is run by its user.
port=$((10000 + RANDOM % 2000)) certificate="/etc/acewiki/$name.crt"
commands="$(sed -n '/^## For a group/,/^## /p' "$root/docs/OPERATIONS.md" | sed -n '/^```sh$/,/^```$/p' | sed '/^```/d' | head -n 10)"
expect "the commands of the document" 10 "$(wc -l <<<"$commands")"
installed=1
while IFS= read -r command; do
    case "$command" in
    'apt-get update'*) continue ;;
    'git clone'*) continue ;;
    'acewiki/tools/package'*) cp "$package" "$work/" && continue ;;
    'apt-get install'*) command="dpkg -i '$package'" ;;
    systemctl*) continue ;;
    curl*) break ;;
    esac
    command="${command//\/etc\/acewiki\/wiki./\/etc\/acewiki\/$name.}"
    command="${command//wiki.example.org/localhost}"
    command="${command//:443/:$port}"
    command="${command//-days 825/-days 2}"
    told="$(cd "$work" && echo secret | bash -c "$command" 2>&1)" || fail "$command: $told"
done <<<"$commands"
as_user=(setpriv "--reuid=acewiki" "--regid=acewiki" --init-groups --)
install -d -m 700 -o acewiki -g acewiki "/var/lib/acewiki/$name"
exec_start '' acewiki "/etc/acewiki/$name.conf" "$work/errors"
expect "a word" '{"done":"word"} 200' "$(ask ann:secret '{"do":"word","kind":"name","forms":["Bern"]}' | tr -d '\n')"
ask ann:wrong '{"do":"words"}' | grep -q ' 401$' || fail "a wrong password is let in"
stop_front
later="$(cd "$work/checkout" && git checkout -q -- . && tools/package --out "$work/later" --version 1~later)" || fail "no later package can be made"
told="$(dpkg -i "$later" 2>&1)" || fail "an upgrade: $told"
expect "the version after the upgrade" "1~later" "$(dpkg-query -W -f '${Version}' acewiki)"
exec_start '' acewiki "/etc/acewiki/$name.conf" "$work/errors"
expect "the word after the upgrade" '{"done":"words","words":[{"forms":["Bern"],"kind":"name"}]} 200' "$(ask ann:secret '{"do":"words"}' | tr -d '\n')"
stop_front
told="$(dpkg --purge acewiki 2>&1)" || fail "a purge: $told"
[ ! -e /usr/lib/acewiki ] || fail "a purge leaves /usr/lib/acewiki"
expect "the wiki after the purge" '{"do":"word","forms":["Bern"],"kind":"name"}' "$(cat "/var/lib/acewiki/$name/wiki.jsonl")"
deluser --quiet --system acewiki >/dev/null 2>&1
echo "front: the package was installed, upgraded over a wiki, and purged"
