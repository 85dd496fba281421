#!/bin/sh
# build.sh PLUSH OUT
# Builds OUT/oracle from the unchanged PLUSH/src/symbols.rs and PLUSH/src/ast.rs, with SrcPos and ParseError out of
# PLUSH/src/lexer.rs and init_runtime out of PLUSH/src/libcore.rs; and OUT/oracle_hash, the same with real hash maps,
# whose order is not determined: for timing only. Nothing of Plush is kept in this repository.
set -e
plush=${1:?folder that holds src/symbols.rs}
out=${2:?folder to build in}
here=$(cd "$(dirname "$0")" && pwd)

mkdir -p "$out/src" "$out/ordered" "$out/hashed"
cp "$here"/rust/*.rs "$out/src/"
cp "$plush/src/symbols.rs" "$plush/src/ast.rs" "$out/src/"
# what stands above the lexer proper, and the three class records of the core
sed '/^\/\/\/ Check if a character can be the start/,$d' "$plush/src/lexer.rs" > "$out/src/lexer_part.rs"
sed -n '/^pub fn init_runtime/,/^}/p' "$plush/src/libcore.rs" > "$out/src/libcore_part.rs"

compile() { rustc --edition 2021 -O --cap-lints allow "$@"; }
compile --crate-type rlib --crate-name rustc_hash "$out/src/maps.rs" -o "$out/ordered/librustc_hash.rlib"
compile --crate-name oracle --extern rustc_hash="$out/ordered/librustc_hash.rlib" "$out/src/main.rs" -o "$out/oracle"
compile --cfg hashed --crate-type rlib --crate-name rustc_hash "$out/src/maps.rs" -o "$out/hashed/librustc_hash.rlib"
compile --crate-name oracle_hash --extern rustc_hash="$out/hashed/librustc_hash.rlib" "$out/src/main.rs" -o "$out/oracle_hash"
