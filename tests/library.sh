#!/bin/sh
# The static library from C and from Rust: builds it, runs the C example and compares what it prints with the worked example's answer and
# tests/c/example.out, checks the header's names, which C++ must take too where it is at hand, then the Rust crate's tests.
#     tests/library.sh [LIST]        LIST is a list of kept cases, crates/replay/data/cases.list unless given
# Needs rt, cc and cargo, and no network.
set -eu
[ $# -eq 0 ] || GEMTWEED_CASES=$(realpath "$1")
[ $# -eq 0 ] || export GEMTWEED_CASES
cd "$(dirname "$0")/.."

./build_library

folder=$(mktemp -d)
trap 'rm -r "$folder"' EXIT
for program in example names; do
    cc -std=c11 -Wall -Wextra -Werror -O2 -I include "tests/c/$program.c" target/staticlib/libgemtweed.a -o "$folder/$program"
done
"$folder/example" > "$folder/printed"
cat crates/optimize_model/stdout tests/c/example.out | diff - "$folder/printed"
"$folder/names" > "$folder/checked" || { cat "$folder/checked"; exit 1; }
echo "C: as expected; names: $(cat "$folder/checked")"
if c++ --version >/dev/null 2>&1; then
    c++ -x c++ -std=c++11 -Wall -Wextra -Wpedantic -Werror -fsyntax-only include/gemtweed.h
    header="C++ too"
else
    header="C++ NOT TRIED, as there is no c++"
fi

cd rust
cargo test --offline
echo "library: as expected from C and from Rust; the header: $header"
