#!/bin/sh
# Runs the proved program bench with the words `meaning time`: of two sentences of forty tokens, one of `and` and one
# of nested relative clauses, it builds the structure, maps it and prints its axioms, and says how many microseconds of
# processor time ten thousand turns of each of the three took.
set -e
program="$("$(dirname "$0")/program" bench)"
for _ in 1 2 3; do
    "$program" meaning time
done
