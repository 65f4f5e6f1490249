#!/bin/sh
# Compares the calls of one board with those of the second implementation, byte for byte: the program `calls` makes the
# calls of made scripts, in fair sessions and on records and cells that no call made.
# It fails on any difference, if something was not met (each number of each call, each ground of number 12, entries by
# both rules in early and later runs, at the root and deeper, the longest frame, one of an odd length), and if a mistake
# that no sheet can show was not told.
# `calls.sh COUNT SEED` makes other scripts; the first line printed has the seed.
set -eu
cd "$(dirname "$0")/.."
sh tests/second/build
timeout 300 tests/second/target/release/calls crates/calls/out/calls "${1:-5000}" "${2:-1}"
