#!/bin/sh
# Builds and runs the C example, the tests of the Rust crate and the stack test against libshelfstork.a: of SHELFSTORK_LIB, else of ../crates/shelfstork/out.
set -eu
cd "$(dirname "$0")"
SHELFSTORK_LIB=$(cd "${SHELFSTORK_LIB:-../crates/shelfstork/out}" && pwd)
export SHELFSTORK_LIB
made=$(mktemp -d)
trap 'rm -rf "$made"' EXIT
${CC:-cc} -std=c99 -Wall -Wextra -pedantic -I. c/example.c -L"$SHELFSTORK_LIB" -lshelfstork -o "$made/example"
"$made/example" | diff c/example.expect -
echo "c/example: as expected"
(cd rust && CARGO_TARGET_DIR=${CARGO_TARGET_DIR:-$made/target} cargo test --offline --quiet)
python3 stack/stack.py
