#!/bin/sh
# Compares the model, the original, the port and second.py. Prints what was compared; ends with 1 on a difference.
#   ORACLE_SEEDS   folder with the original's expr.rs and desugar.rs (or src--src--expr.rs.txt and src--src--desugar.rs.txt)
#   SEED (1), COUNT (300000) random inputs, THREADS (1)
# Needs cargo and python3; also the Rattle kit (rt), unless target/staticlib/libnetkat.a is there and not stale.
here=$(dirname "$0")
. "$here/prepare.sh"
SEED=${SEED:-1} COUNT=${COUNT:-300000} THREADS=${THREADS:-1}

cargo build --release --offline --quiet --target-dir "$target" || exit 2
cargo build --profile checked --offline --quiet --target-dir "$target" || exit 2
oracle=$target/release/oracle
checked=$target/checked/oracle
sample=$target/sample.txt
vectors="vectors/operations.txt vectors/long_literals.txt vectors/costs.txt vectors/cores.txt vectors/packets.txt vectors/program.txt ../tests/probes.txt"

differences=0
step() {
    echo "== $*"
    "$@" || differences=1
}
step "$oracle" replay $vectors
step python3 second.py $vectors
step "$oracle" exhaustive 2
step "$oracle" compare "$SEED" "$COUNT" 40 "$THREADS"
step "$oracle" compare $((SEED + 1)) $((COUNT / 30)) 400 "$THREADS"
step "$oracle" long "$SEED" "$COUNT" 20 "$THREADS"
step "$oracle" costs "$SEED" $((COUNT * 3 / 10))
step "$oracle" cores "$SEED" $((COUNT * 3 / 10))
step "$oracle" packets "$SEED" $((COUNT * 3 / 10))
step "$oracle" meaning "$SEED" $((COUNT / 3))
"$oracle" sample "$SEED" $((COUNT / 10)) 30 > "$sample" || differences=1
step "$oracle" replay "$sample"
step python3 second.py "$sample"
# overflow checked, in the model and in the original
step "$checked" replay $vectors
step "$checked" compare $((SEED + 2)) $((COUNT / 5)) 40 "$THREADS"
[ $differences = 0 ] && echo "NO DIFFERENCE" || echo "DIFFERENCES"
exit $differences
