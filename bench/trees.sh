#!/bin/sh
# Times of bindings/rust and of the original from tree to tree, in one run. Needs what bench/run.sh needs.
here=$(dirname "$0")/../oracle
. "$here/prepare.sh"
cargo build --profile timing --offline --quiet --target-dir "$target" || exit 2
exec "$target/timing/oracle" bench-trees ../bench/policies
