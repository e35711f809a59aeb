#!/bin/sh
# Random policies and their cores, written by bindings/rust and read back by the original's parser. Ends with 1 on a difference.
#   ORACLE_SEEDS   folder with the original's expr.rs, desugar.rs and parser.rs (or src--src--expr.rs.txt and so on)
#   SEED (1), COUNT (100000) random policies
# Needs cargo; also the Rattle kit (rt), unless target/staticlib/libnetkat.a is there and not stale.
here=$(dirname "$0")/..
. "$here/prepare.sh"
target=../target/readback
cargo build --release --offline --quiet --manifest-path readback/Cargo.toml --target-dir "$target" || exit 2
exec "$target/release/readback" compare "${SEED:-1}" "${COUNT:-100000}"
