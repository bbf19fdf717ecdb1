#!/usr/bin/env bash
# How many requests a second `acewiki serve` answers on loopback, on the proved program: GET / with 100 words, a connection
# each, beside nginx with one worker process serving an equal page; one client at a time without and with 60 idle
# connections; a request of 65,536 bytes in single bytes; and the memory after 100,000 requests.
set -eu
root="$(cd "$(dirname "${BASH_SOURCE[0]}")/.." && pwd)"
program="${PROGRAM:-$("$root/bench/program" acewiki)}"
for tool in ab nginx; do
    command -v "$tool" >/dev/null || { echo "http.sh: $tool is missing (Debian's apache2-utils and nginx-light have it)"; exit 1; }
done
work="$(mktemp -d)"
wiki=18651 web=18652
trap 'kill $(jobs -p) 2>/dev/null; [ ! -f "$work/nginx.pid" ] || kill "$(cat "$work/nginx.pid")"; rm -rf "$work"' EXIT

awk 'BEGIN { for (n = 0; n < 100; n++) printf "{\"do\":\"word\",\"kind\":\"name\",\"forms\":[\"Name%c%c\"]}\n", 97 + n / 10, 97 + n % 10 }' >"$work/words"
"$program" serve "127.0.0.1:$wiki" <"$work/words" >"$work/journal" &
server=$!
for _ in $(seq 100); do curl -sf -o "$work/index.html" "http://127.0.0.1:$wiki/" && break; sleep 0.1; done
cat >"$work/nginx.conf" <<CONF
worker_processes 1; pid $work/nginx.pid; error_log $work/error.log;
events { worker_connections 512; }
http { access_log off; keepalive_timeout 0; default_type text/html; server { listen 127.0.0.1:$web; root $work; index index.html; } }
CONF
chmod 755 "$work"
nginx -c "$work/nginx.conf"

rate() { # PORT REQUESTS CLIENTS [QUERY]: requests a second
    ab -q -n "$2" -c "$3" "http://127.0.0.1:$1/${4:-}" 2>/dev/null | awk '/^Requests per second/ { printf "%d", $4 } /^Failed requests/ && $3 > 0 { print "failed: " $3 > "/dev/stderr" }'
}
# Through the front for groups, which an ordinary user starts: the way in, which it answers itself, and the bare index.
behind=18653
own=()
[ "$(id -u)" != 0 ] || own=(setpriv --reuid=nobody --regid=nogroup --clear-groups --)
mkdir "$work/front"
cp -r "$root/tools" "$root/deploy" "$work/front/"
cp "$program" "$work/front/acewiki"
cp "$work/words" "$work/front/wiki.jsonl"
: >"$work/front/said"
[ "$(id -u)" != 0 ] || chown -R nobody "$work/front"
"${own[@]}" "$work/front/tools/front" "$work/front/wiki.jsonl" "127.0.0.1:$behind" --rate 100000 2>"$work/front/said" &
front=$!
for _ in $(seq 100); do grep -q '^AceWiki: ' "$work/front/said" && break; sleep 0.1; done

kilobytes() { awk '/^VmRSS/ { print $2 }' "/proc/$server/status"; }

here="$(rate $wiki 20000 16)" there="$(rate $web 20000 16)"
printf '%-44s %8d\n' 'acewiki, 16 clients, requests/second' "$here" 'nginx, equal page, requests/second' "$there"
awk -v a="$here" -v b="$there" 'BEGIN { printf "%-44s %8.2f\n", "acewiki as a part of nginx", a / b }'
in="$(rate $behind 20000 16)" plain="$(rate "$behind" 20000 16 '?plain')"
kill $front
printf '%-44s %8d\n' 'front, GET /, requests/second' "$in" 'front, GET /?plain, requests/second' "$plain"
awk -v a="$in" -v p="$plain" -v b="$there" 'BEGIN { printf "%-44s %8.2f %8.2f\n", "both as a part of nginx", a / b, p / b }'
# One client at a time, by turns without and with 60 idle connections, so that what else the machine does hits both alike.
idle() { # FILE: holds 60 connections until it is killed, and makes the file once they stand
    exec python3 - "$wiki" "$1" <<'PY'
import socket, sys, time
held = [socket.create_connection(("127.0.0.1", int(sys.argv[1]))) for _ in range(60)]
open(sys.argv[2], "w").close()
time.sleep(50)
PY
}
for round in $(seq 9); do
    rate $wiki 2000 1 >>"$work/alone"; echo >>"$work/alone"
    idle "$work/idle$round" &
    held=$!
    until [ -e "$work/idle$round" ]; do sleep 0.05; done
    rate $wiki 2000 1 >>"$work/beside"; echo >>"$work/beside"
    kill $held; wait $held 2>/dev/null || true
done
median() { sort -n "$1" | awk 'NF { rates[++n] = $1 } END { print rates[int((n + 1) / 2)] }'; }
alone="$(median "$work/alone")" beside="$(median "$work/beside")"
printf '%-44s %8d\n' 'acewiki, one client at a time' "$alone" 'the same beside 60 idle connections' "$beside"
awk -v a="$alone" -v b="$beside" 'BEGIN { printf "%-44s %8.2f\n", "with idle connections as a part of without", b / a }'
python3 - "$wiki" <<'PY'
import socket, sys, time
body = b'{"do":"find","word":"Nameab","x":"' + b"a" * 70000
head = b"POST /api HTTP/1.1\r\nHost: a\r\nContent-Length: 65400\r\n\r\n"
data = head + body[:65398] + b'"}'
data = data[: len(head) + 65400]
link = socket.create_connection(("127.0.0.1", int(sys.argv[1])))
link.setsockopt(socket.IPPROTO_TCP, socket.TCP_NODELAY, 1)
begun = time.time()
for byte in data:
    link.send(bytes([byte]))
got = link.recv(65536)
print(f"{'65,536 bytes in single bytes, seconds':44} {time.time() - begun:8.2f}")
assert got.startswith(b"HTTP/1.1 200"), got[:80]
PY
before="$(kilobytes)"
rate $wiki 100000 16 >/dev/null
printf '%-44s %8d %8d\n' 'memory before and after 100,000, KB' "$before" "$(kilobytes)"
