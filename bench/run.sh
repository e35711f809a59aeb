#!/bin/sh
# Times of the port and of the original, in one run. Needs ORACLE_SEEDS (see oracle/run.sh) and cargo; also the Rattle kit (rt), unless
# target/staticlib/libnetkat.a is there and not stale.
here=$(dirname "$0")/../oracle
. "$here/prepare.sh"
cargo build --profile timing --offline --quiet --target-dir "$target" || exit 2
exec "$target/timing/oracle" bench ../bench/policies
