#!/usr/bin/env bash
# tests/examples.sh: every file of examples/ is run by README's command, and what is printed is held to the .txt beside it. A .txt serves the
# .fasta and the .job of its name.
set -u
cd "$(dirname "$(realpath "$0")")/.."
ran=0 differ=0
for file in examples/*.fasta examples/*.job; do
    ran=$((ran + 1))
    if ! ./hurdlesong.sh "$file" | cmp - "${file%.*}.txt"; then
        echo "$file: prints something else than ${file%.*}.txt"
        differ=$((differ + 1))
    fi
done
echo "$ran examples run, $differ differ"
[ "$ran" -gt 0 ] && [ "$differ" -eq 0 ]
