#!/bin/sh
# Random lists of scans through the archive and through the second opinion, replayed and call by call; every byte must agree.
# Damaged words through the archive alone; it must end and touch only what it may.
#
#   host/differential.sh [LISTS] [SEED] [FIRST]
#
# LISTS: how many (1000000). SEED: what makes them (the clock). FIRST: number of the first (0).
# Ends with 0 if all agree; with 1 and a case made small if two answers differ or a call touched what it may not.
set -eu
cd "$(dirname "$0")/.."

host/archive.sh meifgur_c
if ! CARGO_TARGET_DIR=target/differential cargo build --release --quiet --offline --locked \
    --manifest-path host/differential/Cargo.toml; then
    echo "host/differential.sh: FAILED: host/differential does not build" >&2
    exit 1
fi
if ! target/differential/release/differential "$@"; then
    echo "host/differential.sh: FAILED" >&2
    exit 1
fi
