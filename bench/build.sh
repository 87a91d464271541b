#!/bin/sh
# takes the crate's text from the oracle, builds the library by `rt lib` and the driver by cargo: target/release/bench
cd "$(dirname "$0")" || exit 1
set -e
(cd ../oracle && python3 extract.py > /dev/null)
mkdir -p theirs/src
cp -r ../oracle/src/. theirs/src/
# the crate root without the oracle's own modules, and with ours
sed -e '/^#\[path = "\.\.\/own\//{N;d}' -e '/^mod bracket_probe;/d' -e '/^fn main() {/,/^}/d' ../oracle/src/main.rs > theirs/src/lib.rs
rm -f theirs/src/main.rs theirs/src/bracket_probe.rs
cat >> theirs/src/lib.rs <<'END'
#[path = "../../own/theirs.rs"]
pub mod bench;
END
(cd ../crates/bench_lib && rt lib)
cargo build --offline -q --release
