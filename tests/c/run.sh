#!/usr/bin/env bash
# The C interface from C: how the structs lie in memory and the numbers that are defined, in C and in C++, and the sample sessions over the library
# as it was built. The last line counts the three, and the exit is non-zero where one fails.
set -uo pipefail
cd "$(dirname "$0")/../.." || exit 1
strict=(-Wall -Wextra -Werror -pedantic -I include)
passed=0 failed=0

# a name and a command
try() {
    local name=$1
    shift
    if "$@"; then
        echo "C interface: $name: as it must be"
        passed=$((passed + 1))
    else
        echo "C interface: $name: FAILED"
        failed=$((failed + 1))
    fi
}

sessions() {
    gcc -std=c11 -O2 "${strict[@]}" tests/c/samples.c target/staticlib/libhost.a -o target/tests/samples && target/tests/samples
}

mkdir -p target/tests
try "layout in C" gcc -std=c11 "${strict[@]}" -fsyntax-only tests/c/layout.c
try "layout in C++" g++ -std=c++17 "${strict[@]}" -fsyntax-only -x c++ tests/c/layout.c
try "sample sessions" sessions
echo "$passed passed, $failed failed"
[ "$failed" -eq 0 ]
