#!/bin/sh
# columns.sh OUT [COUNT]
# Times `rearrange` of `columns`, both ways, beside plain Rust loops of the same. All is built in OUT; COUNT runs of each (5,000).
set -e
out=${1:?folder to build in}
count=${2:-5000}
here=$(cd "$(dirname "$0")" && pwd)
top=$(cd "$here/../.." && pwd)
mkdir -p "$out/repository/crates"
out=$(cd "$out" && pwd)

# the crates below `columns`, and one more that exports what is timed
for crate in definition ast machine words columns; do
    rm -rf "$out/repository/crates/$crate"
    cp -R "$top/crates/$crate" "$out/repository/crates/"
done
grep -E '^(definition|ast|machine|words|columns):' "$top/crates.txt" > "$out/repository/crates.txt"
echo 'bench_columns staticlib: ast columns' >> "$out/repository/crates.txt"
mkdir -p "$out/repository/crates/bench_columns/src"
cat > "$out/repository/crates/bench_columns/src/lib.rt" <<'END_OF_CRATE'
#![tactic(auto)]

use ast::question::no_number;
use columns::{Way, rearrange};

#[unsafe(no_mangle)]
pub extern "C" fn bench_to_columns(source: &[u32], target: &mut [u32]) -> u32 {
    no_number(rearrange(Way::ToColumns, source, target))
}

#[unsafe(no_mangle)]
pub extern "C" fn bench_from_columns(source: &[u32], target: &mut [u32]) -> u32 {
    no_number(rearrange(Way::ToRows, source, target))
}
END_OF_CRATE
(cd "$out/repository/crates/bench_columns" && rt lib > "$out/staticlib.log" 2>&1) || { tail -20 "$out/staticlib.log"; exit 1; }
rustc --edition 2021 -O -L "$out/repository/crates/bench_columns/out" -l static=bench_columns "$here/columns.rs" -o "$out/columns"
"$out/columns" "$count"
