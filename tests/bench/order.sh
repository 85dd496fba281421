#!/bin/sh
# order.sh OUT [COUNT]
# Times `order_units` beside plain Rust routines of the same. All is built in OUT; COUNT runs of each (2,000).
set -e
out=${1:?folder to build in}
count=${2:-2000}
here=$(cd "$(dirname "$0")" && pwd)
top=$(cd "$here/../.." && pwd)
mkdir -p "$out/repository/crates"
out=$(cd "$out" && pwd)

# the crates below `order_units`, and one more that exports what is timed
crates="definition ast lexer shapes names name_index machine words links row_fits sheet distinct answer passes first_four unit_order start_units
circle_ranks import_circle order_units"
: > "$out/repository/crates.txt"
for crate in $crates; do
    rm -rf "$out/repository/crates/$crate"
    cp -R "$top/crates/$crate" "$out/repository/crates/"
    grep "^$crate:" "$top/crates.txt" >> "$out/repository/crates.txt"
done
echo 'bench_order staticlib: ast lexer answer first_four order_units' >> "$out/repository/crates.txt"
mkdir -p "$out/repository/crates/bench_order/src"
cat > "$out/repository/crates/bench_order/src/lib.rt" <<'END_OF_CRATE'
#![tactic(auto)]

#[unsafe(no_mangle)]
pub extern "C" fn bench_order(sheet: &[u32], names: &[u8], list: &mut [u32]) -> u32 {
    let answer = order_units::order_units(sheet, names, list);
    answer.number
}

#[unsafe(no_mangle)]
pub extern "C" fn bench_position(sheet: &[u32], names: &[u8], list: &mut [u32]) -> u64 {
    let answer = order_units::order_units(sheet, names, list);
    let pos = answer.pos;
    pos.0
}

#[unsafe(no_mangle)]
pub extern "C" fn bench_first_four(sheet: &[u32], names: &[u8]) -> u32 {
    ast::question::no_number(first_four::first_four(sheet, names))
}
END_OF_CRATE
(cd "$out/repository/crates/bench_order" && rt lib > "$out/staticlib.log" 2>&1) || { tail -20 "$out/staticlib.log"; exit 1; }
rustc --edition 2021 -O -L "$out/repository/crates/bench_order/out" -l static=bench_order "$here/order.rs" -o "$out/order"
"$out/order" "$count"
