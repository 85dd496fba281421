#!/bin/sh
# session.sh PLUSH OUT [COUNT [ROUNDS]]
# Times entries into sessions and previews of them, by the Rattle crates, and the entries by the Rust, on the runs of make_session_cases.py. PLUSH holds src/symbols.rs; all is
# built in OUT. COUNT runs of each measurement in a round (200), ROUNDS rounds in turn (5). Prints tables of times and ratios, then the stack
# that an entry needs.
set -e
plush=${1:?folder that holds src/symbols.rs}
out=${2:?folder to build in}
count=${3:-200}
rounds=${4:-5}
here=$(cd "$(dirname "$0")" && pwd)
top=$(cd "$here/../.." && pwd)
mkdir -p "$out"
out=$(cd "$out" && pwd)
bench="$out/repository/crates/session_bench"
rm -rf "$out/repository/crates"
mkdir -p "$bench/src" "$bench/proofs/bench_outside"

# the libraries, and one more that exports what is timed
cp -R "$top"/crates/* "$out/repository/crates/"
grep -v -E '^(question_tests|columns_tests|plush_resolve|plush_serve):' "$top/crates.txt" > "$out/repository/crates.txt"
echo 'session_bench staticlib: definition answer name_index session fresh_session session_names session_check session_outside prompt preview' >> "$out/repository/crates.txt"
(cd "$out/repository/crates" && rm -rf question_tests columns_tests plush_resolve plush_serve)
cat > "$bench/src/lib.rt" <<'END_OF_CRATE'
#![tactic(auto)]

use fresh_session::fresh;
use name_index::PLACES;
use preview::preview;
use prompt::enter;
use session::lent::LentSession;
use session_check::check_session;
use session_names::space::{NameSpace, STARTS};
use session_outside::runs::SessionRuns;
use session_outside::{outside_size, outside_words};

#[unsafe(no_mangle)]
pub extern "C" fn bench_fresh(words: &mut [u32], bytes: &mut [u8]) {
    fresh(words, bytes);
}

#[unsafe(no_mangle)]
pub extern "C" fn bench_enter(words: &mut [u32], bytes: &mut [u8], sheet: &[u32], names: &[u8], out: &mut [u32]) -> u32 {
    let answer = enter(words, bytes, sheet, names, out);
    answer.number
}

#[unsafe(no_mangle)]
pub extern "C" fn bench_preview(words: &[u32], bytes: &[u8], sheet: &[u32], names: &[u8], out: &mut [u32]) -> u32 {
    let answer = preview(words, bytes, sheet, names, out);
    answer.number
}

#[unsafe(no_mangle)]
pub extern "C" fn bench_check(words: &[u32], bytes: &[u8]) -> usize {
    let mut starts = [0u32; STARTS];
    let mut index = [0u32; PLACES];
    let space = NameSpace { starts: &mut starts, index: &mut index };
    usize::from(check_session(LentSession { words, bytes }, space).is_some())
}

#[unsafe(no_mangle)]
pub extern "C" fn bench_outside(words: &[u32], bytes: &[u8], out: &mut [u32]) -> usize {
    let mut starts = [0u32; STARTS];
    let mut index = [0u32; PLACES];
    let space = NameSpace { starts: &mut starts, index: &mut index };
    let Some(_list) = check_session(LentSession { words, bytes }, space) else {
        return 0;
    };
    let size = outside_size(words);
    if out.len() < size {
        return 0;
    }
    outside_words(SessionRuns { words }, out);
    size
}
END_OF_CRATE
cat > "$bench/proofs/bench_outside/Answers.antt" <<'END_OF_PROOF'
use Rattle.std.proofs.Common.{arith}
use Rattle.session_outside.proofs.ReadableLaws.{readable}
use Rattle.session_bench.proofs.bench_outside.Goals as goal

pub invariant_of-outside_words : goal.invariant_of-outside_words
invariant_of-outside_words c = record { readable = readable c.args.words.now c.args.bytes.now c.in-Some.ensures.0 }

pub outside_words-requires : goal.outside_words-requires
outside_words-requires c = omega (arith, c.if-out-size.false, c.outside_size-size.ensures)
END_OF_PROOF
(cd "$out/repository/crates/session_bench" && rt lib > "$out/session_staticlib.log" 2>&1) || { tail -20 "$out/session_staticlib.log"; exit 1; }
"$here/../oracle/build.sh" "$plush" "$out/oracle" > /dev/null
rustc --edition 2021 -O -L "$out/repository/crates/session_bench/out" -l static=session_bench "$here/session_driver.rs" -o "$out/session_driver"
python3 "$here/make_session_cases.py" "$out/sessions"

: > "$out/session_times"
round=0
while [ $round -lt "$rounds" ]; do
    for run in ordinary full; do
        # before the lines of an entry stands "CASE ID": "WHAT: N times, mean X ns, median Y ns, least Z ns"
        "$out/oracle/oracle_hash" --time-sessions "$count" "$out/sessions/$run.runs" |
            awk '$1 == "CASE" { id = $2 } NF > 6 { print id, "rust_" $1, $(NF - 4), $(NF - 1) }' >> "$out/session_times"
    done
    for run in ordinary full parts; do
        "$out/session_driver" "$count" "$out/sessions/$run.runs" >> "$out/session_times"
    done
    round=$((round + 1))
done
python3 "$here/session_table.py" "$out/session_times"
for entry in ordinary_0_10 ordinary_999_1000 full_999_1000 deep_0_2004; do
    python3 "$here/stack.py" "$out/session_driver" "$out/sessions/${entry%%_*}.runs" "$entry"
done
