#!/bin/bash
# The C tests: the header as C99, C11 and C++17; what the archive exports and needs; each function (netkat_h.c); the pages docs/REFUSALS.md and
# docs/FORMAT.md (pages.c); the stack that the header promises (stack.c); installing, and the example (install.sh). Builds libnetkat.a first if
# it is missing or older than the code. Needs the Rattle kit, or an archive that NETKAT_LIB names, a C compiler and make. Ends with 1 at the
# first difference.
set -eu
cd "$(dirname "$0")/.."
make -s lib > /dev/null
lib=${NETKAT_LIB:-target/staticlib/libnetkat.a}
cc=${CC:-cc} cxx=${CXX:-c++}
warnings='-Wall -Wextra -pedantic -Werror'
mkdir -p target

# What the archive exports is declared; it needs memset of the C library and nothing else; it has no variables, so no state.
symbols=$(nm "$lib")
for name in $(awk '$2 == "T" { print $3 }' <<< "$symbols"); do
    grep -q "^[a-z].* $name(" include/netkat.h || { echo "$name is not declared"; exit 1; }
done
needs=$(awk '$1 == "U" { print $2 }' <<< "$symbols" | sort -u | tr '\n' ' ')
[ "$needs" = 'memset ' ] || { echo "the archive needs $needs"; exit 1; }
! grep -E ' [BbCDdSsGg] ' <<< "$symbols" || { echo 'the archive has variables'; exit 1; }

for standard in c99 c11; do
    $cc -std=$standard $warnings -fsyntax-only -x c include/netkat.h
done
if command -v "$cxx" > /dev/null; then
    $cxx -std=c++17 $warnings -fsyntax-only -x c++ include/netkat.h
    $cxx -std=c++17 $warnings -x c++ tests/netkat_h.c -x none "$lib" -o target/netkat_h
    target/netkat_h
else
    echo 'no C++ compiler here: the header is not tried as C++'
fi

# Compiles the test with the flags and runs it.
run() {
    local name=$1
    shift
    $cc -std=c11 $warnings "$@" "tests/$name.c" "$lib" -o "target/$name"
    "target/$name"
}

run netkat_h -O1
run pages -O1
run stack -O1 -pthread

sanitizers='-g -fsanitize=address,undefined -fno-sanitize-recover=all'
if echo 'int main(void) { return 0; }' | $cc $sanitizers -x c - -o target/sanitized 2> /dev/null && target/sanitized; then
    export ASAN_OPTIONS=detect_leaks=0
    run netkat_h $sanitizers
    run pages $sanitizers
    $cc -std=c99 $warnings $sanitizers -Iinclude examples/c/desugar.c "$lib" -o target/desugar
    target/desugar | diff examples/c/desugar.out -
else
    echo 'no sanitizers here'
fi

NETKAT_LIB=$lib bash tests/install.sh
