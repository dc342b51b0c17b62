#!/usr/bin/env bash
# Runs the program `block` and holds what it prints.
#
#     tests/block_program.sh [BLOCK [TESTS]]
#
# BLOCK is the program (default crates/block/out/block). TESTS is the program of this folder, whose own
# cipher gives the expected ciphertexts (default target/tests/release/tests).
# For 32 bytes on standard input, key then block, it has to print 32 lower-case hexadecimal digits
# and a line feed; for any other length `length` and a line feed. It has to do so however the bytes
# arrive: at once, from a file, or in small pieces with pauses.
set -u

block=$(realpath "${1:-$(dirname "$0")/../crates/block/out/block}")
tests=$(realpath "${2:-$(dirname "$0")/../target/tests/release/tests}")
for program in "$block" "$tests"; do
    if [ ! -x "$program" ]; then
        echo "no program $program"
        exit 2
    fi
done
work=$(mktemp -d)
trap 'rm -rf "$work"' EXIT
cd "$work" || exit 2

passed=0
failed=0

# Holds the files that a run left (got, errors) and its exit status.
hold() { # NAME EXPECTED STATUS
    printf '%s\n' "$2" >expected
    if [ "$3" = 0 ] && [ ! -s errors ] && cmp -s got expected; then
        passed=$((passed + 1))
    else
        failed=$((failed + 1))
        echo "FAILED $1: exit status $3"
        echo "  got      $(head -c 80 got | od -An -c | tr -d '\n')"
        echo "  expected $(od -An -c <expected | tr -d '\n')"
    fi
}

# The bytes that hexadecimal digits say.
bytes() { # DIGITS
    printf "$(sed 's/../\\x&/g' <<<"$1")"
}

# The same in pieces of SIZE bytes, each written by itself, with a pause after every EVERY pieces.
pieces() { # DIGITS SIZE EVERY
    local at=0 count=0
    while [ "$at" -lt "${#1}" ]; do
        bytes_of_piece "${1:at:2 * $2}"
        at=$((at + 2 * $2))
        count=$((count + 1))
        if [ $((count % $3)) = 0 ]; then
            sleep 0.01
        fi
    done
}

# As `bytes`, without starting another program: a slow pipe must not get slower still.
bytes_of_piece() { # DIGITS
    local digits=$1 text=
    while [ -n "$digits" ]; do
        text+="\\x${digits:0:2}"
        digits=${digits:2}
    done
    printf "$text"
}

# Each way for the bytes to arrive. The program may stop reading early, so the writer's end counts for nothing.
at_once() { # NAME DIGITS EXPECTED
    bytes "$2" 2>/dev/null | timeout 10 "$block" >got 2>errors
    hold "$1, at once" "$3" "${PIPESTATUS[1]}"
}

from_file() { # NAME DIGITS EXPECTED
    bytes "$2" >input
    timeout 10 "$block" <input >got 2>errors
    hold "$1, from a file" "$3" "$?"
}

slowly() { # NAME DIGITS EXPECTED SIZE EVERY
    pieces "$2" "$4" "$5" 2>/dev/null | timeout 10 "$block" >got 2>errors
    hold "$1, $4 at a time with pauses" "$3" "${PIPESTATUS[1]}"
}

# ---- 32 bytes: the published vectors and random ones

"$tests" cases 40 >cases || exit 2
number=0
while read -r key plaintext ciphertext; do
    number=$((number + 1))
    at_once "case $number" "$key$plaintext" "$ciphertext"
    from_file "case $number" "$key$plaintext" "$ciphertext"
    if [ "$number" -le 8 ]; then
        slowly "case $number" "$key$plaintext" "$ciphertext" 1 1
        slowly "case $number" "$key$plaintext" "$ciphertext" 16 1
        slowly "case $number" "$key$plaintext" "$ciphertext" 31 1
    fi
done <cases

# ---- any other length; the first 32 bytes are those of a vector, so that reading too little shows

read -r key plaintext ciphertext < <(tail -n 1 cases)
long=$(printf '%s%s%s' "$key" "$plaintext" "$ciphertext")
while [ "${#long}" -lt $((2 * 65568)) ]; do
    long+=$long
done

for length in 0 1 2 15 16 17 30 31 33 34 48 63 64 65 288 4096 4128 5000 65568; do
    digits=${long:0:2 * length}
    at_once "$length bytes" "$digits" length
    from_file "$length bytes" "$digits" length
done

# One byte at a time: a pause after each, or for the long input after every hundredth.
for length in 0 1 31 33; do
    slowly "$length bytes" "${long:0:2 * length}" length 1 1
done
slowly "5000 bytes" "${long:0:10000}" length 1 100

# The first 32 bytes arrive, then after a pause one more.
slowly "33 bytes" "${long:0:66}" length 32 1

# ---- nothing at all

timeout 10 "$block" </dev/null >got 2>errors
hold "an empty device" length "$?"

echo "$passed passed, $failed failed"
[ "$failed" = 0 ]
