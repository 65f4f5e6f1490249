#!/bin/sh
# Plays damaged sheets under valgrind: no crash, no error in memory, and what the second implementation prints.
set -u
cd "$(dirname "$0")/.." || exit 1
command -v valgrind >/dev/null || {
    echo "damaged: valgrind is not on the path"
    exit 1
}
sh tests/second/build || exit 1
folder=$(mktemp -d) || exit 1
trap 'rm -rf "$folder"' EXIT
trap 'exit 1' HUP INT TERM

# hurt NAME SHEET COMMAND..: the kept sheet, through the command.
hurt() {
    to=$folder/$1.sheet
    from=tests/corpus/$2.sheet
    shift 2
    "$@" <"$from" >"$to"
}

# Kept sheets of seven boards: cut trees of 14, 16 and 51 lines.
deep=unequal-b4-n7-run2
wide=unequal-b5-n7-run1
long=climbed-b4-n7-run2

hurt untouched $long cat
hurt lowercase $long tr A-F a-f
hurt other-character $wide sed '5s/0/G/'
hurt space $deep sed '3s/^/ /'
hurt return $deep sed 's/$/\r/'
hurt odd-digits $long sed '40s/.$//'
hurt cut-line $wide sed '6s/^\(......\).*/\1/'
hurt key-only $deep sed '2,9s/^\(........\).*/\1/'
hurt no-newline $deep sh -c 'printf %s "$(cat)"'
hurt cut-off $long head -c 500
hurt swapped-lines $deep sed '4{h;d;};5G'
hurt doubled-line $long sed '30p'
hurt empty-line $wide sed '7s/^/\n/'
hurt empty-lines-last $wide sh -c 'cat; echo; echo'
hurt short-head $deep sed '1s/^\(....................\).*/\1/'
hurt no-head $deep sed 1d
hurt byte-00 $long tr 5 '\000'
hurt byte-FF $deep tr 7 '\377'
hurt more-values $deep sed '3,8s/$/FFFEFD00FF0102030405060708090A0B0C0D0E0F/'
hurt byte-more $deep sed '3,8s/$/00/'
hurt byte-fewer $long sed '2,$s/..$//'
hurt high-bytes $long sed '1s/^070002/070202/;2,$s/0001$/0201/'
hurt all-FFFF $long sed '2,$s/0001$/FFFF/'
hurt largest-span $deep sed '1s/^070002/07FFFF/;2,$s/0001$/FFFE/'
hurt no-sets $deep sed '1s/.*/0700020000000400000000/'
hurt no-sets-no-frames $deep sed -n '1s/.*/0700020000000400000000/p'
hurt many-sets $deep sh -c 'printf 070002000000040000FF; head -c 512 /dev/zero | tr "\0" 0; echo; tail -n +2'
hurt eight-boards $deep sed '1s/^07/08/'
hurt other-default $long sed '1s/^0700020000/0700020001/'
hurt default-for-values $deep sed '1s/^0700020000/07FFFFFFFE/;2,9s/^\(........\).*/\1/'
hurt default-of-span $deep sed '1s/^0700020000/0700020002/'
hurt no-default $deep sed '1s/^0700020000/070002/'
hurt one-byte-head $deep sed '1s/.*/070200000400041F2B26381F/'
hurt larger-set-last $deep sed '1s/.*/070002000000040000042B26381F1F/'
hurt repeated-sets $long sed '1s/.*/070002000000040000082B2B2638381F1F1F1F/'
hurt last-of-32 $deep sh -c 'printf 07000200000004000020; head -c 62 /dev/zero | tr "\0" 0; echo 1F1F; tail -n +2'
hurt nonsense $deep head -c 3000 crates/bench/out/bench

played=0
wrong=0
for sheet in "$folder"/*.sheet; do
    name=$(basename "$sheet" .sheet)
    played=$((played + 1))
    timeout 60 tests/second/target/release/play <"$sheet" >"$folder/expected"
    timeout 120 valgrind -q --error-exitcode=9 crates/bench/out/bench <"$sheet" >"$folder/printed"
    status=$?
    if [ "$status" -ne 0 ] || ! cmp "$folder/printed" "$folder/expected"; then
        echo "damaged: $name is wrong (status $status); printed:"
        cat "$folder/printed"
        wrong=$((wrong + 1))
    fi
done
echo "damaged: $played sheets, $wrong wrong"
[ "$wrong" -eq 0 ]
