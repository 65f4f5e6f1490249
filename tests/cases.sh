#!/bin/sh
# Plays tests/cases/NAME.sheet and compares what is printed with NAME.out, byte for byte;
# then sheets of the greatest length and above it, which are made here.
set -u
cd "$(dirname "$0")/.." || exit 1
folder=$(mktemp -d) || exit 1
trap 'rm -rf "$folder"' EXIT
trap 'exit 1' HUP INT TERM
played=0
wrong=0

# play NAME SHEET EXPECTED: bench prints EXPECTED, all of it and nothing else.
play() {
    played=$((played + 1))
    timeout 20 crates/bench/out/bench <"$2" >"$folder/printed" && cmp "$folder/printed" "$3" && return
    echo "cases: $1 is wrong; printed:"
    cat "$folder/printed"
    wrong=$((wrong + 1))
}

# made NAME LENGTH TEXT: the sheet in $folder/NAME has this length, and TEXT is printed for it.
made() {
    [ "$(wc -c <"$folder/$1")" -eq "$2" ] || {
        echo "cases: $1 has another length"
        wrong=$((wrong + 1))
    }
    printf %b "$3" >"$folder/expected"
    play "$1" "$folder/$1" "$folder/expected"
}

for sheet in tests/cases/*.sheet; do
    name=$(basename "$sheet" .sheet)
    play "$name" "$sheet" "tests/cases/$name.out"
done

# Case 7 with so many bytes from the dealer to board 3 that the sheet has 65,536 bytes. Their number is odd; with one
# set more in the head, the set 00, it is even: 16,367 values. Either frame counts as the default, which is 0.
# longest SHEET DIGITS: the first three lines, and a frame of so many digits.
longest() {
    head -n 3 "tests/cases/$1.sheet"
    printf 01010003
    head -c "$2" /dev/zero | tr '\0' 7
    echo
}
decided='0100050000\n0200050000\n0300050000\n'
longest case-7 65470 >"$folder/longest-odd"
made longest-odd 65536 "$decided"
longest place-nobody-listed 65468 >"$folder/longest"
made longest 65536 "$decided"

# The same with a digit for the last newline: 21, line 4.
{
    head -c 65535 "$folder/longest"
    printf 7
} >"$folder/longest-unended"
made longest-unended 65536 'FF150004\n'

# One byte more, an empty line: 20, whatever the lines are.
{
    cat "$folder/longest"
    echo
} >"$folder/too-long"
made too-long 65537 'FF140000\n'

# Far more, and no digits.
head -c 200000 /dev/zero >"$folder/far-too-long"
made far-too-long 200000 'FF140000\n'

echo "cases: $played sheets, $wrong wrong"
[ "$wrong" -eq 0 ]
