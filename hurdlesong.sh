#!/usr/bin/env bash
# hurdlesong.sh FILE [EPSILON]: the network of the FASTA text in FILE, or its refusal. A FILE that ends in .job is a job block instead, which
# has its own epsilon. The program is proved and built first where that is not done yet; this needs the Rattle toolchain's `rt` on the path
# and takes long the first time. The exit status is 0 where there is an answer, a network or a refusal, and not where there is none.
set -eu
if [ $# -lt 1 ] || [ $# -gt 2 ]; then
    echo "usage: $0 FILE [EPSILON]" >&2
    exit 2
fi
if [ ! -r "$1" ]; then
    echo "$0: cannot read $1" >&2
    exit 2
fi
file=$(realpath "$1")
epsilon=${2-0}
case $file in
*.job)
    if [ $# -eq 2 ]; then
        echo "$0: a job block has its own epsilon" >&2
        exit 2
    fi
    program=hurdlesong
    ;;
*) program=hurdlesong_fasta ;;
esac
cd "$(dirname "$(realpath "$0")")"
. scripts/runner.sh
runner "$program"
# A program writes its answer to standard output, or says on standard error why there is none. Its status may be 0 then too.
answer=$(mktemp)
trap 'rm -f "$answer"' EXIT
case $file in
*.job) "$program" < "$file" > "$answer" ;;
*) "$program" "$epsilon" < "$file" > "$answer" ;;
esac
cat "$answer"
test -s "$answer"
