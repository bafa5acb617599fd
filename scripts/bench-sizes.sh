#!/bin/sh
# Asks bench for the size of over 100,000 headers, legal and not, and compares every answer with the
# size rules worked out apart from the coder.
# Use: bench-sizes.sh BENCH
set -eu
bench=$1
scripts=$(dirname "$0")
work=$(mktemp -d)
trap 'rm -rf "$work"' EXIT
awk -v calls="$work/calls" -v answers="$work/answers" -f "$scripts/size-rules.awk" -f "$scripts/sizes.awk"
"$bench" <"$work/calls" >"$work/got"
cmp "$work/got" "$work/answers"
echo "bench-sizes: $(wc -l <"$work/answers") answers, all as the size rules have them"
