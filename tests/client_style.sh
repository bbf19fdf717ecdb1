#!/usr/bin/env bash
# Looks at the files of the editor page without running them: tools/client --check has the rules for bytes and lines, eslint those
# of client/.eslintrc.json, as Debian's eslint 6.4 reads ES2020.
set -u
cd "$(dirname "${BASH_SOURCE[0]}")/.." || exit 1
. tests/common.sh
needs python3 eslint
tools/client --check || exit 1
# The formatter and its modules are Debian's, wherever node comes from.
cd client && NODE_PATH="${NODE_PATH:-/usr/share/nodejs}" eslint --format unix .
