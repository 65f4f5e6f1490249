#!/bin/sh
# Runs the tests of the second implementation, then compares it with bench on made sheets and on the corpus.
# A sheet with no sets is played with the one set 00 too, and must print the same.
# It fails on any difference, on a number that no sheet can meet, on unequal roots where none are possible, on a list
# without a place, on roots that are not worth what is claimed, and if one of these was not met: each refusal number,
# each kind of unequal roots, of place, of roots between runs and of values in two bytes (spans, values about the span,
# FFFF, odd frames), an accepted sheet with no sets, and one that decides a default other than 0 though nobody told it.
# `compare.sh COUNT SEED` plays other sheets; the first line printed has the seed.
set -eu
cd "$(dirname "$0")/.."
sh tests/second/build
timeout 300 sh tests/second/build test >/dev/null
timeout 600 tests/second/target/release/compare crates/bench/out/bench "${1:-20000}" "${2:-1}"
