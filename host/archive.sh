#!/bin/sh
# Proves the crates that are named and copies their archives to target/staticlib. The prover says much; it is shown where it fails.
set -eu
cd "$(dirname "$0")/.."

mkdir -p target/staticlib
for library in "$@"; do
    if ! said=$(cd "crates/$library" && rt lib 2>&1); then
        printf '%s\n' "$said" >&2
        echo "host/archive.sh: FAILED: no archive of $library" >&2
        exit 1
    fi
    cp "crates/$library/out/lib$library.a" target/staticlib/
done
