#!/bin/sh
# Runs the proved program bench with the words `model time`: it checks an interpretation of 100 elements and 1,000
# pairs against 2,000 axioms, and says how many microseconds of processor time that took. The interpretation is a model, so no axiom is
# skipped.
set -e
program="$("$(dirname "$0")/program" bench)"
for _ in 1 2 3; do
    "$program" model time
done
