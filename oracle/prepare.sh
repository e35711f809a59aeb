# Sourced by oracle/run.sh, bounds.sh, readback/run.sh and the scripts of bench/ with the folder oracle/ in $here. Makes ORACLE_SEEDS, the folder that holds the
# original's expr.rs and desugar.rs, absolute; goes to oracle/; builds target/staticlib/libnetkat.a if it is not there or older than a source.
# With NETKAT_LIB_DIR, the archive in that folder is taken as it is.
if [ ! -d "${ORACLE_SEEDS:-}" ]; then
    echo "$(basename "$0"): set ORACLE_SEEDS to the folder that holds the original's expr.rs and desugar.rs" >&2
    exit 2
fi
ORACLE_SEEDS=$(cd "$ORACLE_SEEDS" && pwd)
export ORACLE_SEEDS
if [ -n "${NETKAT_LIB_DIR:-}" ]; then
    NETKAT_LIB_DIR=$(cd "$NETKAT_LIB_DIR" && pwd) || exit 2
    export NETKAT_LIB_DIR
fi
cd "$here" || exit 2
# oracle/build.rs judges this too; here what rt prints can be seen.
archive=../target/staticlib/libnetkat.a
if [ -n "${NETKAT_LIB_DIR:-}" ]; then
    reason=
elif [ ! -f "$archive" ]; then
    reason="target/staticlib/libnetkat.a is not there"
elif [ -n "$(find ../crates ../crates.txt -name out -prune -o -type f -newer "$archive" -print | head -n 1)" ]; then
    reason="target/staticlib/libnetkat.a is older than a file of crates/ or crates.txt"
else
    reason=
fi
if [ -n "$reason" ]; then
    command -v rt > /dev/null || { echo "$(basename "$0"): $reason, and there is no rt to build it" >&2; exit 2; }
    echo "$(basename "$0"): $reason: rt builds it, which takes some minutes if its proofs are not at hand" >&2
    mkdir -p ../target/staticlib
    started=$(mktemp ../target/started.XXXXXX) || exit 2
    (cd ../crates/netkat_c && rt lib) || { rm -f "$started"; exit 2; }
    # it is as new as its sources were when rt began
    cp ../crates/netkat_c/out/libnetkat_c.a "$archive" && touch -r "$started" "$archive" && rm -f "$started" || exit 2
fi
target=../target/oracle
