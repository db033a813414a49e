#!/usr/bin/env bash
# Program `play` at its edges: 01's sample, empty input, a script one byte too long, bad records at offsets of one to five digits,
# a frame of 4,101 bytes, silent bytes beside driven ones, and status writes that take their time.
# The last line counts them, and the exit is non-zero where one fails.
set -euo pipefail
cd "$(dirname "$0")/.."
play=crates/play/out/play
[ -x $play ] || (cd crates/play && rt run <stdin >/dev/null)
work=$(mktemp -d)
trap 'rm -rf "$work"' EXIT
passed=0 failed=0

# name, with the input in $work/in and what must be printed in $work/want
try() {
    if $play <"$work/in" >"$work/got" && cmp -s "$work/want" "$work/got"; then
        echo "play: $1: as it must be"
        passed=$((passed + 1))
    else
        echo "play: $1: DIFFERENT"
        diff "$work/want" "$work/got" | head -n 4 || true
        failed=$((failed + 1))
    fi
}

# name, what must be printed, and the input's bytes as printf has them
says() {
    printf "$3" >"$work/in"
    echo "$2" >"$work/want"
    try "$1"
}

# a frame's record, from the frame's bytes in hex
frame() {
    printf "$(printf '5a46%04x%s' $((${#1} / 2)) "$1" | sed 's/../\\x&/g')"
}

# a wait's record, from its microseconds
pause() {
    printf "$(printf '5a57%08x' "$1" | sed 's/../\\x&/g')"
}

# name, the status at the end, and frames in hex, each with what must be printed of it, or "wait" with microseconds
shows() {
    local name=$1 status=$2
    shift 2
    rm -f "$work/in" "$work/want"
    while [ $# -gt 0 ]; do
        if [ "$1" = wait ]; then
            pause "$2" >>"$work/in"
        else
            frame "$1" >>"$work/in"
            echo "F $2" >>"$work/want"
        fi
        shift 2
    done
    echo "S $status" >>"$work/want"
    try "$name"
}

# so many bytes of good records, at least 6: a frame and waits
good() {
    local frame=$((6 + $1 % 6)) laid
    printf "\\x5a\\x46\\x00\\x0$((frame - 4))\\x05"
    head -c $((frame - 5)) /dev/zero
    for ((laid = frame; laid < $1; laid += 6)); do printf '\x5a\x57\x00\x00\x00\x07'; done
}

# an offset: good records up to it, then the bytes, as printf has them, of a record with this number
bad_at() {
    { good "$1" && printf "$3"; } >"$work/in"
    echo "R $2 $1" >"$work/want"
    try "R $2 $1 for${3//\\x/ }"
}

cp crates/play/stdin "$work/in"
cp crates/play/stdout "$work/want"
try "the sample of 01"

: >"$work/in"
echo "S 00" >"$work/want"
try "empty input prints the status alone"

head -c 32769 /dev/zero >"$work/in"
echo "R 11" >"$work/want"
try "32,769 bytes are one too many, and no record's offset is told"

head -c 32768 /dev/zero >"$work/in"
echo "R 12 0" >"$work/want"
try "32,768 bytes that are no record"

says "a last record cut short: nothing is run" "R 14 5" '\x5a\x46\x00\x01\x06\x5a\x46\x00\x02\x05'
says "one byte" "R 14 0" '\x00'
says "half a mark" "R 14 0" '\x5a'
says "a length of 0" "R 13 0" '\x5a\x46\x00\x00'
says "a length of 4,102 and nothing behind it" "R 13 0" '\x5a\x46\x10\x06'
says "a length of 4,101 and nothing behind it" "R 14 0" '\x5a\x46\x10\x05'
says "a wait of three bytes" "R 14 0" '\x5a\x57\x00\x00\x07'
says "two bad records: the first is told" "R 13 0" '\x5a\x46\x00\x00\x00\x00'

# in decimal: 16 is 10 in hex, 42 is 2A
bad_at 10 12 '\x5a\x58\x00\x00'
bad_at 16 13 '\x5a\x46\x00\x00'
bad_at 42 13 '\x5a\x46\xff\xff'
bad_at 100 14 '\x5a\x46\x00'
bad_at 1000 12 '\x46\x5a'
bad_at 10000 13 '\x5a\x46\x10\x06'
bad_at 32767 14 '\x5a'
bad_at 32767 14 '\x00'

# 03 from address 0: four silent bytes, then the erased array
{
    printf '\x5a\x46\x10\x05\x03'
    head -c 4100 /dev/zero
} >"$work/in"
{
    printf 'F --------'
    head -c 8194 /dev/zero | tr '\0' 'F'
    printf '\nS 00\n'
} >"$work/want"
try "a frame of 4,101 bytes"

# two dashes for a silent byte, none for an FF that the chip drives, and never any for the status at the end
shows "an FF of the array is driven" 00 030012340000 --------FFFF
shows "0B's dummy byte is silent, an FF behind it driven" 00 0b0012340000 ----------FF
shows "9F with five bytes" 00 9f00000000 --8C3010--
shows "AB and 90 at their borders" 00 ab000000 -------- ab00000000 --------05 90000001 -------- 900000010000 --------058C
shows "in power-down only AB is answered" 00 b9 -- 0500 ---- 0300000000 ---------- ab00000000 --------05 0500 --00
shows "while busy only 05 is answered" 03 06 -- 0200000000 ---------- 0300000000 ---------- 9f00000000 ---------- 0500 --03
shows "an unknown opcode and a wrong length" 00 700000 ------ 0600 ----

# while a status write runs the status has BUSY, WEL and the old bits, at the end of the script too
shows "a status write of 5,000 microseconds" 1C 06 -- 011c ---- 0500 --03 wait 4999 0500 --03 wait 1 0500 --1C
shows "a script that ends in a status write" 03 06 -- 011c ---- 06 -- 0300000000 ---------- wait 4999

echo "$passed passed, $failed failed"
[ "$failed" -eq 0 ]
