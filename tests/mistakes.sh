#!/bin/sh
# Prints the deliberate mistakes of the second implementation and the kept sheets that tell each from the right engine.
# It fails if a mistake is told by no sheet of the corpus.
set -eu
cd "$(dirname "$0")/.."
sh tests/second/build
timeout 120 tests/second/target/release/mistakes
