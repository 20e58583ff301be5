#!/bin/sh
# What the gate runs of the oracle: build, tests, and the programs on stored frames.
# Under two minutes on two cores from a fresh clone. Needs cargo, no network.
set -eu
cd "$(dirname "$0")"
if ! command -v cargo >/dev/null 2>&1; then
    echo "oracle: cargo is not installed, so the comparison with the Rust is left out"
    exit 0
fi
cargo build --release --offline --quiet
cargo test --release --offline --quiet -p harness
bin=target/release
$bin/model --stream <sample/frames.bin | cmp - sample/answers.bin
cmp sample/frames.bin ../crates/representation/stdin
$bin/harness pairs sample/frames.bin | cmp - ../crates/representation/stdout
$bin/harness images damaged | cmp - ../crates/verdict/stdin
$bin/harness verdicts <../crates/verdict/stdin | cmp - ../crates/verdict/stdout
$bin/harness children 6 60 | cmp - ../crates/child_list/specs/Drawn.antt
$bin/harness interleave sample/frames.bin sample/answers.bin | cmp - ../crates/replay/stdin
$bin/model <../crates/merge/stdin | cmp - ../crates/merge/stdout
$bin/card <../crates/card/stdin | cmp - ../crates/card/stdout
$bin/read_card <../crates/read_card/stdin | cmp - ../crates/read_card/stdout
frame=$(mktemp)
trap 'rm -f "$frame" "$frame.rust"' EXIT
for name in E airport night luggage cap zones driver; do
    $bin/harness bytes <"../examples/$name.txt" >"$frame"
    $bin/model <"$frame" | cmp - "../examples/$name.listing"
    # the Rust does not write the first line's last two fields
    $bin/harness as-the-rust <"../examples/$name.listing" >"$frame.rust"
    $bin/listed <"$frame" | cmp - "$frame.rust"
done
echo "oracle: the listed Rust, the model and the stored answers agree"
