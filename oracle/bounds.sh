#!/bin/sh
# Compares bounds through `literals::BitSlice::compare`, which the library does not export: the program `replay` asks it. The vectors, all bounds over
# fields of up to five bits and random ones, with the model's answers and those of second.py. Ends with 1 on a difference.
#   ORACLE_SEEDS as for run.sh; SEED (1), COUNT (100000) random comparisons
# Needs the Rattle kit (rt), cargo and python3.
here=$(dirname "$0")
. "$here/prepare.sh"
SEED=${SEED:-1} COUNT=${COUNT:-100000}

lines=$target/bounds
rm -rf "$lines" && mkdir -p "$lines" || exit 2
# rt run leaves the program there; the run itself finds no cases, and says so
replay=$(cd ../crates/replay && pwd)/out/replay || exit 2
rm -f "$replay"
(cd ../crates/replay && rt run) > "$lines/check" 2>&1
[ -x "$replay" ] || { cat "$lines/check"; exit 2; }
cargo build --release --offline --quiet --target-dir "$target" || exit 2
oracle=$target/release/oracle
grep -v '^#' vectors/bounds.txt > "$lines/all.txt" && "$oracle" bounds "$SEED" "$COUNT" >> "$lines/all.txt" || exit 2
differences=0
"$oracle" replay vectors/bounds.txt || differences=1
python3 second.py "$lines/all.txt" || differences=1

# replay reads the file `cases` of the folder that it runs in
split -l 2500 "$lines/all.txt" "$lines/part."
for part in "$lines"/part.*; do
    python3 ../tools/cases.py "$part" > "$lines/cases" || exit 2
    (cd "$lines" && "$replay") > "$lines/report" || differences=1
    count=$(wc -l < "$part")
    grep -qx "$count of $count cases agree" "$lines/report" || { echo "DIFFERENCE in $part"; cat "$lines/report"; differences=1; }
done
echo "$(wc -l < "$lines/all.txt") comparisons, in $(ls "$lines"/part.* | wc -l) runs of replay"
[ $differences = 0 ] && echo "NO DIFFERENCE" || echo "DIFFERENCES"
exit $differences
