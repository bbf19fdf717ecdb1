#!/usr/bin/env bash
# Opens the wiki in two headless browsers (browser.py says what they do). $1 is the program, $2 a folder for the pictures.
# Where Chromium is there but doesn't start, which is no fault of ours, the status is 78.
set -u
here="$(cd "$(dirname "${BASH_SOURCE[0]}")" && pwd)"
. "$here/common.sh"
needs python3 chromium chromedriver
work="$(mktemp -d)"
trap 'rm -rf "$work"' EXIT
starts_chromium "$work"
pictures="${2:-$work}"
python3 "$here/browser.py" "$1" "$pictures"
