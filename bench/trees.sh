#!/bin/sh
# Runs the proved program bench with the words `trees time`: it checks derivation trees of 4 to 40 tokens, a
# thousand times each, and says how many microseconds of processor time one check took.
set -e
program="$("$(dirname "$0")/program" bench)"
"$program" trees time
