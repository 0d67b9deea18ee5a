#!/usr/bin/env bash
# The pictures, written to the directory $1: the traces of W4, of W5 and of a sleep entry as trace-w4.svg, trace-w5.svg and trace-sleep.svg,
# and which crate stands on which as crates.svg.
set -eu
cd "$(dirname "$0")/.."
state=$(mktemp)
trap 'rm -f "$state"' EXIT
sailgarnet() { cargo run --quiet --offline --manifest-path host/Cargo.toml -p sailgarnet-cli -- "$@"; }

sailgarnet fresh examples/station.pwt -o "$state"
sailgarnet plan examples/station.pwt "$state" move 2 D3cold -o "$state"
sailgarnet trace examples/station.pwt "$state" move 1 D3hot --svg "$1/trace-w4.svg"
sailgarnet plan examples/station.pwt "$state" move 1 D3hot -o "$state"
sailgarnet trace examples/station.pwt "$state" move 1 D0 --svg "$1/trace-w5.svg"
sailgarnet fresh examples/station.pwt -o "$state"
sailgarnet plan examples/station.pwt "$state" arm 1 S3 D2 -o "$state"
sailgarnet trace examples/station.pwt "$state" sleep S3 --svg "$1/trace-sleep.svg"
python3 tests/crates_svg.py > "$1/crates.svg"
