#!/bin/sh
# Builds the oracle and its programs: copies the published sources into build/, applies the
# mechanical edits listed in README.md, and compiles. The binaries are build/oracle and one for each
# program in src/bin.
set -eu
cd "$(dirname "$0")"
docs=${DOCS:-../docs/src}

mkdir -p build
for c in ir frontend typecheck; do
    rm -rf "build/$c"
    cp -R "crates/$c" "build/$c"
    mkdir -p "build/$c/src"
done

take() { # crate, path below src/
    cp "$docs/purple-garden-$1/src/$2" "build/$1/src/$2"
}
for f in lib.rs err.rs display.rs typedefs.rs; do take typecheck $f; done
for f in lib.rs ptype.rs constant.rs; do take ir $f; done
for f in lib.rs ast.rs diagnostic.rs typemap.rs lex/tok.rs; do take frontend $f; done

edit() { # file, sed expression, how many lines must change
    cp "$1" "$1.orig"
    sed -i "$2" "$1"
    n=$(diff "$1.orig" "$1" | grep -c '^>' || true)
    if [ "$n" -ne "$3" ]; then
        echo "build.sh: edit of $1 changed $n lines, expected $3" >&2
        exit 1
    fi
    rm "$1.orig"
}

# Edit 1: the feature's name in this compiler.
for c in ir frontend typecheck; do
    edit build/$c/src/lib.rs '/^#!\[feature(/s/allocator_ext/allocator_api/' 1
done

# Edit 2: note where a diagnostic is made (two lines, line numbers unchanged).
d=build/frontend/src/diagnostic.rs
edit $d 's/^    pub fn new(message: impl Into<String>, span: Span) -> Self {$/    #[track_caller] & purple_garden_shared::site::note(std::panic::Location::caller());/' 1
edit $d 's/^    pub fn at_token(/    #[track_caller] pub fn at_token(/' 1

# With --sources-only the edited sources are left for a look and nothing is compiled.
[ "${1-}" = --sources-only ] && exit 0

RUSTC_BOOTSTRAP=1 CARGO_TARGET_DIR=build/target cargo build --release --offline --quiet
for program in src/main.rs src/bin/*; do
    name=$(basename "$program" .rs)
    [ "$name" = main ] && name=oracle
    cp "build/target/release/$name" "build/$name"
    echo "built build/$name"
done
