#!/usr/bin/env bash
# Builds the static library, then over it the save and the read in C, in C++ and in Rust and the protection, the flag book, the flags by
# name and the salvage in C and in C++. Each has to tell what save.txt, read.txt, protect.txt, book.txt, flags.txt or salvage.txt says.
# The save and the flags by name are run twice on an image of their own, first without one, then on what they wrote. The save has to
# leave the chip erased but for scenes 9 to 20, the flags by name but for two books, three names and a note. The last line counts the
# fourteen, and the exit is non-zero where one fails.
set -uo pipefail
cd "$(dirname "$0")/.." || exit 1
library=target/staticlib/libhost.a built=target/examples
strict=(-O2 -Wall -Wextra -Werror -pedantic -I include)
work=$(mktemp -d) || exit 1
trap 'rm -rf "$work"' EXIT
passed=0 failed=0

# an example, its language, a program, and the command that builds it
try() {
    local example=$1 language=$2 program=$3
    shift 3
    if "$@" -o "$program" && "run_$example" "$program" >"$work/told" && diff "examples/$example.txt" "$work/told"; then
        echo "$example in $language: as it must be"
        passed=$((passed + 1))
    else
        echo "$example in $language: FAILED"
        failed=$((failed + 1))
    fi
}

# a program, and the image that it has to leave
run_twice() {
    rm -f "$work/chip.img"
    "$1" "$work/chip.img" && echo "once more" && "$1" "$work/chip.img" && cmp "$2" "$work/chip.img" >&2
}

# a program
run_save() {
    run_twice "$1" "$work/saved"
}

# a program
run_flags() {
    run_twice "$1" "$work/flagged"
}

# a program
run_read() {
    "$1"
}

# a program
run_protect() {
    "$1"
}

# a program
run_book() {
    "$1"
}

# a program
run_salvage() {
    "$1"
}

# so many FF
erased() {
    head -c "$1" /dev/zero | tr '\0' '\377'
}

(cd crates/host_c && rt lib) | tail -1 || exit 1
mkdir -p target/staticlib $built
cp crates/host_c/out/libhost_c.a $library || exit 1
{
    printf '\377\001\340'
    erased 1048573
} >"$work/saved"
{
    erased 12288
    printf '\372' # the old book: scenes 0 and 2
    erased 4095
    printf 'NR\010prologueNR\006letterNR\007rooftop'
    erased 4066
    printf '\372' # the book again, by the way back
    erased 4095
    printf '\000' # the note
    erased 1023999
} >"$work/flagged"
try save C $built/save_c gcc -std=c11 "${strict[@]}" examples/c/save.c $library
try save C++ $built/save_cpp g++ -std=c++17 "${strict[@]}" -x c++ examples/c/save.c -x none $library
try save Rust $built/save_rust rustc --edition 2024 -O -D warnings -L target/staticlib examples/rust/save.rs
try read C $built/read_c gcc -std=c11 "${strict[@]}" examples/c/read.c $library
try read C++ $built/read_cpp g++ -std=c++17 "${strict[@]}" -x c++ examples/c/read.c -x none $library
try read Rust $built/read_rust rustc --edition 2024 -O -D warnings -L target/staticlib examples/rust/read.rs
try protect C $built/protect_c gcc -std=c11 "${strict[@]}" examples/c/protect.c $library
try protect C++ $built/protect_cpp g++ -std=c++17 "${strict[@]}" -x c++ examples/c/protect.c -x none $library
try book C $built/book_c gcc -std=c11 "${strict[@]}" examples/c/book.c $library
try book C++ $built/book_cpp g++ -std=c++17 "${strict[@]}" -x c++ examples/c/book.c -x none $library
try flags C $built/flags_c gcc -std=c11 "${strict[@]}" examples/c/flags.c $library
try flags C++ $built/flags_cpp g++ -std=c++17 "${strict[@]}" -x c++ examples/c/flags.c -x none $library
try salvage C $built/salvage_c gcc -std=c11 "${strict[@]}" examples/c/salvage.c $library
try salvage C++ $built/salvage_cpp g++ -std=c++17 "${strict[@]}" -x c++ examples/c/salvage.c -x none $library
echo "$passed passed, $failed failed"
[ "$failed" -eq 0 ]
