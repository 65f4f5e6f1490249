#!/bin/sh
# Plays sheets that come badly, and prints to where nothing can be printed: tests/input.py. Each case has a time limit.
# Then plays kept sheets under valgrind: no error in memory, and what is printed without it.
set -u
cd "$(dirname "$0")/.." || exit 1
folder=$(mktemp -d) || exit 1
trap 'rm -rf "$folder"' EXIT
trap 'exit 1' HUP INT TERM
command -v python3 >/dev/null || {
    echo "input: python3 is not on the path"
    exit 1
}
timeout 300 python3 tests/input.py || exit 1

command -v valgrind >/dev/null || {
    echo "input: valgrind is not on the path: left out"
    exit 0
}
played=0
wrong=0
for name in case-7 default-masked mistake-OddFilled mistake-OddRoundedDown named-n7-sets32 overlong-121 overlong-241 \
    place-31 place-by-board refusal-05-three refusal-18-and-23 refusal-22-nine refusal-22-one-byte \
    unequal-b4-n7-run2 wide-dealer; do
    sheet=tests/corpus/$name.sheet
    played=$((played + 1))
    timeout 20 crates/bench/out/bench <"$sheet" >"$folder/expected"
    timeout 120 valgrind -q --error-exitcode=9 crates/bench/out/bench <"$sheet" >"$folder/printed" 2>"$folder/errors"
    status=$?
    if [ "$status" -ne 0 ] || [ -s "$folder/errors" ] || ! cmp "$folder/printed" "$folder/expected"; then
        echo "input: $name under valgrind is wrong (status $status); standard error:"
        cat "$folder/errors"
        wrong=$((wrong + 1))
    fi
done
echo "input: $played sheets under valgrind, $wrong wrong"
[ "$wrong" -eq 0 ]
