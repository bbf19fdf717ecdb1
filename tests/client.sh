#!/usr/bin/env bash
# Drives the editor page in headless Chromium, by real keys and clicks, over a wiki that the program serves: the page that the
# program serves itself, or else that of tools/client --try (client.py says what must hold). $1 is the program; $2 is the group of
# parts to go through, or a folder for pictures of the pages; the words behind it are single parts. Where Chromium is there but
# doesn't start the status is 78.
set -u
here="$(cd "$(dirname "${BASH_SOURCE[0]}")" && pwd)"
. "$here/common.sh"
needs python3 chromium chromedriver
work="$(mktemp -d)"
trap 'rm -rf "$work"' EXIT
starts_chromium "$work"
python3 "$here/client.py" "$@"
