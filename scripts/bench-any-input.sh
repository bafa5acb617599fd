#!/bin/sh
# Shows that bench reads any input to its end: bytes that are no text, lines of millions of bytes,
# and a last line without a line feed.
# Use: bench-any-input.sh BENCH
set -eu
bench=$1
work=$(mktemp -d)
trap 'rm -rf "$work"' EXIT

expect() { # what it shows, wanted output, got output
    if [ "$2" != "$3" ]; then
        printf 'bench-any-input: %s: wanted\n%s\ngot\n%s\n' "$1" "$2" "$3" >&2
        exit 1
    fi
    echo "bench-any-input: $1"
}

{ cat "$bench"; printf '\nsize 0 1 2 63 0'; } >"$work/binary"
expect "answers a call behind a program's bytes" "size 1 21" "$("$bench" <"$work/binary" | tail -n 1)"
expect "finds no call among a program's bytes" "unreadable" "$("$bench" <"$bench" | sort -u)"

zeros() { head -c 5000000 /dev/zero | tr '\0' "$1"; }
{ printf 'size 0 1 2 63 '; zeros 0; printf '\n'; zeros ' '; printf 'size 0 1 2 63 0\n'; zeros x; printf '\n#'; zeros y; } >"$work/long"
expect "reads lines of millions of bytes" "size 1 21
size 1 21
unreadable" "$("$bench" <"$work/long")"
expect "answers nothing to nothing" "" "$("$bench" </dev/null)"
