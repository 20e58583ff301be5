#!/bin/sh
# plans.sh PROGRAM [COUNT [SEED]]: the program `plans` against the listed transport solver, every answer and every cell of every plan. The program is made by `rt run` in crates/plans.
set -eu
cd "$(dirname "$0")"
cargo build --release --offline --quiet
program=${1:-../crates/plans/out/plans}
target/release/harness plans-with "$program" "${3:-1}" "${2:-100000}"
