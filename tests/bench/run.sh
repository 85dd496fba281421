#!/bin/sh
# run.sh PLUSH OUT [COUNT [ROUNDS]]
# Times the resolver of the Rattle crates against the Rust on the sheets of make_cases.py. PLUSH holds src/symbols.rs; all is built in
# OUT. COUNT runs of each measurement in a round (500), ROUNDS rounds in turn (10). Prints a table of medians and ratios, then the stack
# that the resolver needs.
set -e
plush=${1:?folder that holds src/symbols.rs}
out=${2:?folder to build in}
count=${3:-500}
rounds=${4:-10}
here=$(cd "$(dirname "$0")" && pwd)
top=$(cd "$here/../.." && pwd)
mkdir -p "$out"
out=$(cd "$out" && pwd)
rm -rf "$out/repository/crates"
mkdir -p "$out/repository/crates/bench/src"

# the libraries, and one more that exports what is timed
cp -R "$top"/crates/* "$out/repository/crates/"
grep -v -E '^(question_tests|columns_tests|plush_resolve|plush_serve):' "$top/crates.txt" > "$out/repository/crates.txt"
echo 'bench staticlib: ast first_four answer resolver resolve_text text' >> "$out/repository/crates.txt"
(cd "$out/repository/crates" && rm -rf question_tests columns_tests plush_resolve plush_serve)
cat > "$out/repository/crates/bench/src/lib.rt" <<'END_OF_CRATE'
#![tactic(auto)]

#[unsafe(no_mangle)]
pub extern "C" fn bench_first_four(words: &[u32], names: &[u8]) -> u32 {
    ast::question::no_number(first_four::first_four(words, names))
}

#[unsafe(no_mangle)]
pub extern "C" fn bench_resolve(words: &[u32], names: &[u8], out: &mut [u32]) -> u32 {
    let answer = resolver::resolve(words, names, out);
    answer.number
}

#[unsafe(no_mangle)]
pub extern "C" fn bench_read_sheet(sheet: &[u8], words: &mut [u32]) -> usize {
    text::read_sheet(sheet, words)
}

#[unsafe(no_mangle)]
pub extern "C" fn bench_resolve_text(sheet: &[u8], names: &[u8], text: &mut [u8]) -> usize {
    resolve_text::resolve_text(sheet, names, text)
}
END_OF_CRATE
(cd "$out/repository/crates/bench" && rt lib > "$out/staticlib.log" 2>&1) || { tail -20 "$out/staticlib.log"; exit 1; }
"$here/../oracle/build.sh" "$plush" "$out/oracle" > /dev/null
rustc --edition 2021 -O -L "$out/repository/crates/bench/out" -l static=bench "$here/driver.rs" -o "$out/driver"
python3 "$here/make_cases.py" "$out/oracle/oracle" "$out/cases"

: > "$out/times"
round=0
while [ $round -lt "$rounds" ]; do
    for sheet in "$out"/cases/*.sheet; do
        case=$(basename "$sheet" .sheet)
        names="$out/cases/$case.names"
        for way in --time --time-words --time-full; do
            # "WHAT: N times, mean X ns, median Y ns, least Z ns"
            "$out/oracle/oracle_hash" $way "$count" "$sheet" "$names" |
                sed "s/^.*median \([0-9]*\) ns, least \([0-9]*\) ns/$case rust$way \1 \2/" >> "$out/times"
        done
        # unquoted: two numbers, the answer rows lent and the answer's number
        "$out/driver" "$count" "$sheet" "$names" $(cat "$out/cases/$case.lent") | sed "s/^/$case /" >> "$out/times"
    done
    round=$((round + 1))
done
python3 "$here/table.py" "$out/times"
python3 "$here/stack.py" "$out/driver" "$out/cases"
