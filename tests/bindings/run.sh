#!/bin/sh
# run.sh OUT [--clone] [--count N] [--oracle PLUSH]
# Tests of include/plush.h and bindings/rust, built in OUT. Needs rt, gcc, g++, cargo and Python 3, and no network.
# --clone: builds the library from a clone of the repository, in which nothing is proved yet, and so measures the time from a clone to
# a linked C program. Else what the crates' folders out/ keep is not proved again.
# --count N: random sheets to compare (10,000). --oracle PLUSH: compares also with the Rust, whose src/symbols.rs is in PLUSH; the
# distances of identifiers, which the Rust does not say, with tests/oracle/distance.py.
set -e
out=${1:?folder to build in}
shift
clone= count=10000 plush=
while [ $# -gt 0 ]; do
    case $1 in
    --clone) clone=yes ;;
    --count) count=${2:?a number}; shift ;;
    --oracle) plush=${2:?folder that holds src/symbols.rs}; shift ;;
    *) echo "run.sh: $1?" >&2; exit 2 ;;
    esac
    shift
done
here=$(cd "$(dirname "$0")" && pwd)
top=$(cd "$here/../.." && pwd)
mkdir -p "$out"
out=$(cd "$out" && pwd)
flags="-std=c11 -Wall -Wextra -Wpedantic -Werror -O2 -I$top/include"

if [ -n "$clone" ]; then
    rm -rf "$out/clone"
    git clone -q "$top" "$out/clone"
    build=$out/clone
else
    build=$top
fi
start=$(date +%s)
(cd "$build/crates/plush" && rt lib > "$out/staticlib.log" 2>&1) || { tail -20 "$out/staticlib.log"; exit 1; }
library=$build/crates/plush/out
gcc $flags "$top/examples/c/resolve.c" "$library/libplush.a" -o "$out/resolve_c"
echo "${clone:+from a clone: }library and C example linked in $(($(date +%s) - start)) s"

# the examples, on the sample
data=$top/crates/plush_resolve/data
cat > "$out/expected" <<'END'
row 2: the function has 0 locals, 0 captures, 0 escapes
row 4: f is function 6
row 6: the function has 0 locals, 0 captures, 0 escapes
row 9: p is argument 0 of function 6
END
export PLUSH_LIB_DIR="$library" CARGO_TARGET_DIR="$out/cargo"
cargo build --offline --quiet --release --example resolve --manifest-path "$top/bindings/rust/Cargo.toml"
"$out/resolve_c" "$data/sheet.txt" "$data/names.txt" | cmp - "$out/expected"
"$out/cargo/release/examples/resolve" "$data/sheet.txt" "$data/names.txt" | cmp - "$out/expected"
# and on S5 of document 01, whose innermost function uses a name of the outermost
python3 - "$here/../oracle" "$out" <<'END'
import sys
from pathlib import Path
sys.path.insert(0, sys.argv[1])
from serve_cases import samples
s5 = next(case for case in samples() if case.what == "sample S5")
for name, data in (("s5_sheet.txt", s5.text), ("s5_names.txt", s5.names)):
    Path(sys.argv[2], name).write_bytes(data)
END
cat > "$out/expected_s5" <<'END'
row 2: the function has 0 locals, 0 captures, 0 escapes
row 4: f is function 6
row 6: the function has 0 locals, 0 captures, 0 escapes
row 9: the literal hands on argument 0 of function 6
row 10: the function has 0 locals, 1 captures, 0 escapes
row 10: its capture or escape is argument 0 of function 6
row 12: the literal hands on capture 0 of its function
row 13: the function has 0 locals, 1 captures, 0 escapes
row 13: its capture or escape is argument 0 of function 6
row 15: p is capture 0 of its function, 2 functions out
END
"$out/resolve_c" "$out/s5_sheet.txt" "$out/s5_names.txt" | cmp - "$out/expected_s5"
"$out/cargo/release/examples/resolve" "$out/s5_sheet.txt" "$out/s5_names.txt" | cmp - "$out/expected_s5"
echo "examples: C and Rust say of the sample and of S5 what they must"

# the routine at the edges of what it is lent; the header as C++
gcc $flags "$here/edges.c" "$library/libplush.a" -o "$out/edges"
"$out/edges"
printf '#include "plush.h"\nint main() { uint32_t w[8] = {}; return plush_resolve(w, 0, reinterpret_cast<uint8_t *>(w), 0, w, 0, w + 1, 1) != 1; }\n' > "$out/header.cpp"
g++ -std=c++11 -Wall -Wextra -Wpedantic -Werror "-I$top/include" "$out/header.cpp" "$library/libplush.a" -o "$out/header"
"$out/header"
echo "header: C11 and C++11, no warning"
python3 "$here/constants.py"

# random sheets: C, Rust and the pipe
gcc $flags "$here/batch.c" "$library/libplush.a" -o "$out/batch_c"
cargo build --offline --quiet --release --manifest-path "$top/bindings/rust/Cargo.toml"
rustc --edition 2021 -O "$here/batch.rs" --extern plush="$out/cargo/release/libplush.rlib" -L native="$library" -o "$out/batch_rust"
rustc --edition 2021 -O "$here/session.rs" --extern plush="$out/cargo/release/libplush.rlib" -L native="$library" -o "$out/session_rust"
"$out/session_rust"
(cd "$build/crates/plush_serve" && rt run < /dev/null > "$out/serve.log" 2>&1) || { tail -20 "$out/serve.log"; exit 1; }
oracle=
if [ -n "$plush" ]; then
    "$here/../oracle/build.sh" "$plush" "$out/oracle" > /dev/null
    oracle=$out/oracle/oracle
fi
python3 "$here/compare.py" "$build/crates/plush_serve/out/plush_serve" "$out/batch_c" "$out/batch_rust" "$count" $oracle
