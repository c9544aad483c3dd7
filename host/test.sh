#!/bin/sh
# Builds the C and the Rust example against the archive, runs them, and holds what they print to document 01's listing. Each
# saves its bank midway and goes on with one restored; both must save the same. Then measures how much stack the calls use and
# holds the header's figures to it.
set -eu
cd "$(dirname "$0")/.."

archive=target/staticlib/libmeifgur_c.a
expected=crates/meifgur/stdout
host/archive.sh meifgur_c

work=$(mktemp -d)
trap 'rm -rf "$work"' EXIT

gcc -Wall -Wextra -I crates/meifgur_c/include host/c/example.c "$archive" -o "$work/c"
rustc -L native=target/staticlib host/rust/example.rs -o "$work/rust"

for host in c rust; do
    if ! "$work/$host" "$work/$host.bank" >"$work/$host.out"; then
        echo "host/test.sh: FAILED: the $host example ended with an error" >&2
        exit 1
    fi
    if ! diff "$expected" "$work/$host.out" >&2; then
        echo "host/test.sh: FAILED: the $host example printed something else than $expected" >&2
        exit 1
    fi
    echo "host/test.sh: $host prints document 01's listing"
done
if ! cmp "$work/c.bank" "$work/rust.bank" >&2; then
    echo "host/test.sh: FAILED: the examples saved different banks after the same calls" >&2
    exit 1
fi

gcc -O2 -Wall -Wextra -I crates/meifgur_c/include host/c/stack.c "$archive" -o "$work/stack"
if ! "$work/stack"; then
    echo "host/test.sh: FAILED: crates/meifgur_c/include/meifgur.h has other figures of stack than were measured" >&2
    exit 1
fi
