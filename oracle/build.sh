#!/bin/sh
# extracts the crate's text into src/ and builds target/debug/oracle (debug_assert, overflow checks) and target/release/oracle (neither)
cd "$(dirname "$0")" || exit 1
set -e
python3 extract.py
cargo build --offline -q
cargo build --offline -q --release
# the whole files are byte copies
S=${CRATE_SRC:-crate}
for f in layout highlight prompt hint line_buffer undo edit config tty/mod; do cmp "$S/$f.rs" "src/$f.rs"; done
echo "whole files: byte for byte"
