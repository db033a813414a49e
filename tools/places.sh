#!/usr/bin/env bash
# The places of each point of docs/DESIGN-PASS.md in the sources, as its commands find them: `bash tools/places.sh [FOLDER]` prints, for the
# repository in FOLDER (this one without it), how many lines each finds; with `-v` in front of FOLDER the lines themselves.
set -u
lines=no
if [ "${1-}" = -v ]; then lines=yes; shift; fi
cd "${1-$(dirname "$0")/..}" || exit 1

# place NAME PATTERN [FILE..]
place() {
    local name=$1 pattern=$2 found
    shift 2
    [ $# -gt 0 ] || set -- crates/*/src
    found=$(grep -rnE --include='*.rt' -- "$pattern" "$@" 2>/dev/null)
    printf '%4d  %s\n' "$(grep -c . <<<"$found")" "$name"
    if [ $lines = yes ] && [ -n "$found" ]; then sed 's/^/      /' <<<"$found"; fi
}

echo "1 options, results, numbers for kinds and refusals"
place "numbers as constants" '^ *(pub )?const [A-Z_0-9]+: u(8|32) = [0-9]+;' crates/common/src/refusals.rt crates/chip/src/kinds.rt crates/host/src/reader.rt
place "functions that answer a refusal's number" 'ensures \{ result ≡ (first_of \(|frame_number|cut_number|script_number)'
place "flags and numbers beside a value, own options" '^ *(pub )?(number: u32,|found: bool|pending: bool|Silent,|Refused \{$|End \{$)'
place "numbers that mean none" '^ *return (BAD|TOO_LONG|0);|const (BAD|TOO_LONG)'
echo "2 twins"
place "arrays that differ in size and byte" '^ *(pub )?fn [a-z_]*(blank|_room|erased_array)[a-z_]*\('
place "a function a chip" '^ *pub fn (data|kind)\(' crates/chip/src/f25l008a.rt crates/chip/src/f25l05pa.rt
place "the smaller, the larger, the difference, a wider type" '^pub fn (wide|less|smaller|larger|is_within)\('
place "steps 2 and 3, each measured and written" '^(pub )?fn (measure|put)_(words|pages|program)\('
place "a sector's size, an erased byte, a book's bytes" 'const (SECTOR|ERASED|USED)\b'
echo "3 loops"
place "while and loop" '^ *(while |loop )'
echo "4 equality, order, copying, conversion, printing"
place "by hand" '^ *(pub )?fn (same|zeros_of|two_bytes_at|four_bytes_at|record_of|digit|put_pair|put_decimal|copy_bytes|fill_strip|copy_strip|byte_of|driven_of|bit_of|address_bytes)\('
place "casts of bytes and of bools" '\b(byte|op|tb|bpl|changes|waited|at|preamble|from) as (u8|u32|u64|usize)\b|\) as (u32|usize);'
echo "5 facts and parameters together"
place "the region inside the array" 'requires.*Inside '
place "a good list" 'requires.*Good list'
place "a book inside the array" 'requires.*\+ 512 ≤'
place "a span inside the array" 'requires.*\(span_of e\)\.lo'
place "an address below 2^32" 'requires.*k < 4294967296'
place "a command that fits its state" 'requires.*(Fits s c|NoRead c)'
place "a frame of 4,101 bytes at most" 'requires.*longest_frame'
place "the next word's address" 'requires.*s\.next < 2097152'
place "driven as long as output" 'requires.*length driven'
place "a number of five digits" 'requires.*decimal_end'
echo "6 buffers with an index, arrays with a count"
place "a buffer and an index in it" '(buffer|text|list): &mut \[u8\], at: usize'
place "bounds beside a slice" 'from: usize, to: usize'
place "an array with a count beside it" '\[0u32; MOST_NAMES\]'
echo "7 switches"
place "a bool that says which step" '(words|moving): bool'
