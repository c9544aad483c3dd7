#!/bin/sh
# Times the archive's scan and replay, and two rivals of the second opinion, on the same scans, and holds the scan's ratio to
# the quick rival to its bounds.
#
#   host/benchmark.sh [--write] [ROUNDS]
#
# ROUNDS: the least time of so many counts (15). --write: writes docs/speed.md and docs/speed.svg too.
# Ends with 0 if all give the same events and reports and every ratio is within its bound; else with 1 and a line for each that is not.
set -eu
cd "$(dirname "$0")/.."

host/archive.sh meifgur_c
if ! CARGO_TARGET_DIR=target/benchmark cargo build --release --quiet --offline --locked \
    --manifest-path host/benchmark/Cargo.toml; then
    echo "host/benchmark.sh: FAILED: host/benchmark does not build" >&2
    exit 1
fi
if ! target/benchmark/release/benchmark --check "$@"; then
    echo "host/benchmark.sh: FAILED" >&2
    exit 1
fi
