#!/bin/sh
# Our program against the crate's own text and against the model of our rules: docs/COMPARISON.md.
#   compare.sh [ACTS [SEED [JOBS [DENIED]]]]       PROGRAM and ORACLE may name other binaries
cd "$(dirname "$0")" || exit 1
O=${ORACLE:-target/release/oracle}
P=${PROGRAM:-../crates/caption/out/caption}
[ -x "$O" ] || ./build.sh || exit 1
[ -x "$P" ] || { echo "no $P: build it with 'cd crates/caption && rt run -- run < ../../examples/quarter.acts'" >&2; exit 1; }
exec "$O" compare "$P" "${1:-1500000}" "${2:-1}" "${3:-2}" $4
