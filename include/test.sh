#!/usr/bin/env bash
# Tests the C header against the archive that `bash tools/archive` writes: bash include/test.sh [ARCHIVE]
# Compiles the header as C11 and as C++11 with every warning an error, checks layout, version and answered values (test.c), that
# the archive can be called from several threads (no writable data, nothing called but memcpy and memset), that it has little read-only
# data, the stack of each call (stack.c), and what the example prints. Compilers: CC and CXX, else cc and c++.
set -euo pipefail
cd "$(dirname "$0")/.."
archive=${1:-target/staticlib/librazhikum.a}
if [ ! -f "$archive" ]; then
    echo "include/test.sh: $archive is missing: run bash tools/archive first" >&2
    exit 1
fi
work=$(mktemp -d)
trap 'rm -rf "$work"' EXIT
c="${CC:-cc} -std=c11 -O2 -Wall -Wextra -Wpedantic -Werror -Iinclude"
cxx="${CXX:-c++} -x c++ -std=c++11 -O2 -Wall -Wextra -Wpedantic -Werror -Iinclude"

echo '#include "razhikum.h"' >"$work/header.c"
$c -c "$work/header.c" -o "$work/header.o"
$cxx -c "$work/header.c" -o "$work/header.o"
echo "header: C11 and C++11"

$c include/test.c "$archive" -o "$work/test-c"
$cxx include/test.c -x none "$archive" -o "$work/test-cxx"
echo "layout and values, from C and from C++:"
"$work/test-c" examples
"$work/test-cxx" examples

called=$(nm -u "$archive" | awk '$1 == "U" { print $2 }' | sort -u | tr '\n' ' ')
writable=$(objdump -h "$archive" | awk '/^ *[0-9]+ / { name = $2; size = $3 } /ALLOC/ && !/READONLY/ && size !~ /^0+$/ { print name }')
if [ "$called" != "memcpy memset " ] || [ -n "$writable" ]; then
    echo "the archive calls: $called; writable: $writable" >&2
    exit 1
fi
echo "threads: no writable data, nothing called but memcpy and memset"

# what the boot part pays in read-only memory beside the code: no table of 2,048 next ports is in it
read_only=$(size -A "$archive" | awk '$1 ~ /^\.rodata/ { sum += $2 } END { print sum + 0 }')
if [ "$read_only" -gt 1024 ]; then
    echo "the archive has $read_only bytes of read-only data, more than 1024" >&2
    exit 1
fi
echo "read-only data: $read_only bytes"

$c -pthread include/stack.c "$archive" -o "$work/stack"
echo "stack, bytes used and said:"
"$work/stack" examples

$c include/example.c "$archive" -o "$work/example"
"$work/example" | diff include/example.stdout - >&2
echo "example: as include/example.stdout"
echo "include/test.sh: ok"
