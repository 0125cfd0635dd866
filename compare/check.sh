#!/usr/bin/env bash
# Builds the plain interpreter without warnings, runs its self-tests, and
# compares `replay` with the line that the scope paper prints.
set -eu
cd "$(dirname "$0")"
build=$(mktemp -d)
trap 'rm -rf "$build"' EXIT
compiler=${CC:-cc}
flags=(-std=c11 -O1 -g -Wall -Wextra -Wconversion -Wpedantic -Werror)

"$compiler" "${flags[@]}" check.c plain.c -o "$build/check"
"$compiler" "${flags[@]}" replay.c plain.c -o "$build/replay"

"$build/check"

got=$(printf '\x01\x00\x05\x00\x10\x00\x00\x00\x1A\x00\x00\x00\x1A\x00\x05\x00\x05\xCA\x07\xCC\x06\xC8\x00\x60\x00\xE1' | "$build/replay")
want='0 5 0005 0000000C 0 000C'
if [ "$got" != "$want" ]; then
    echo "replay printed: $got" >&2
    exit 1
fi
echo "replay: $got"
