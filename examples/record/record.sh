#!/usr/bin/env bash
# Compiles the merge sort with the recorder, and records it before and after the change, into the folder out.
set -euo pipefail
cd "$(dirname "${BASH_SOURCE[0]}")"
mkdir -p out

options=(-std=c11 -O2 -Wall -Wextra -Wno-unknown-pragmas)
gcc "${options[@]}" -fsanitize-coverage=trace-pc -c mergesort.c -o out/mergesort.o
gcc "${options[@]}" -c spprof_record.c -o out/spprof_record.o
gcc out/mergesort.o out/spprof_record.o -o out/mergesort

for variant in before after; do
    SPTRACE=out/$variant.sptrace out/mergesort $variant
    echo "recorded examples/record/out/$variant.sptrace"
done
