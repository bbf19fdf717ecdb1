#!/bin/sh
# Runs the proved program bench with the words `parse time`: it says how many microseconds of processor time the
# least skeleton of each sentence took, of up to 40 tokens, and then how many the plain listing of its derivations took.
set -e
program="$("$(dirname "$0")/program" bench)"
"$program" parse time
