#!/bin/sh
# Does the comparison see a fault? Puts one fault at a time into a copy of the original, then of the port, then of the model, then of the
# port's costs, of what reads cores back, at last of what runs packets, and wants a difference reported.
# Needs ORACLE_SEEDS (see run.sh), target/staticlib/libnetkat.a, cc, ar and objcopy. ONLY=NAME tries one fault.
if [ ! -d "${ORACLE_SEEDS:-}" ]; then
    echo "selftest.sh: set ORACLE_SEEDS to the folder that holds the original's expr.rs and desugar.rs" >&2
    exit 2
fi
true_seeds=$(cd "$ORACLE_SEEDS" && pwd)
cd "$(dirname "$0")" || exit 2
top=$(cd .. && pwd)/target/selftest
seeds=$top/seeds library=$top/library copy=$top/copy report=$top/report.txt
mkdir -p "$seeds" "$library" "$copy"
seen=0 missed=0

miss() {
    echo "MISSED $1"
    missed=$((missed + 1))
}

# replace FILE OLD NEW: the first OLD becomes NEW
replace() {
    python3 - "$@" <<'END'
import sys
path, old, new = sys.argv[1:]
text = open(path).read()
if old not in text:
    sys.exit(1)
open(path, "w").write(text.replace(old, new, 1))
END
}

# fault NAME PATTERN [FOLDER]: builds, compares what $asked says, and wants a line DIFFERENCE with the pattern, or the end of the process
# by a fault
asked="compare 5 ${COUNT:-30000} 40 1"
fault() {
    cargo build --manifest-path "${3:-.}/Cargo.toml" --release --offline --quiet --target-dir "$top" 2> "$report" ||
        { miss "$1: no build"; return; }
    if "$top/release/oracle" $asked > "$report" 2>&1; then
        miss "$1"
    elif grep -q "DIFFERENCE $2" "$report"; then
        seen=$((seen + 1))
        echo "seen   $1: $(grep "DIFFERENCE $2" "$report" | head -1 | cut -c12-110)"
    elif ! grep -q DIFFERENCE "$report"; then
        seen=$((seen + 1))
        echo "seen   $1: the process ended"
    else
        miss "$1: another difference"
    fi
}

# original NAME FILE OLD NEW: the first OLD in a copy of the original's file becomes NEW
original() {
    [ -z "$ONLY" ] || [ "$ONLY" = "$1" ] || return
    for f in expr desugar; do
        cp "$true_seeds/$f.rs" "$seeds/$f.rs" 2> /dev/null || cp "$true_seeds/src--src--$f.rs.txt" "$seeds/$f.rs" || exit 2
    done
    replace "$seeds/$2.rs" "$3" "$4" || { miss "$1: not in the original"; return; }
    ORACLE_SEEDS=$seeds fault "$1" ORIGINAL
}

# port NAME FUNCTION: a copy of the library in which faulty.c stands before FUNCTION
port() {
    [ -z "$ONLY" ] || [ "$ONLY" = "$1" ] || return
    objcopy --redefine-sym "netkat_$2=true_$2" ../target/staticlib/libnetkat.a "$library/libnetkat.a" &&
        cc -Wall -O1 -I../include -D"$1" -c faulty.c -o "$top/faulty.o" &&
        ar r "$library/libnetkat.a" "$top/faulty.o" || { miss "$1: no library"; return; }
    NETKAT_LIB_DIR=$library fault "$1" PORT
}

# model NAME PATTERN OLD NEW [FILE]: a copy of this folder in which the first OLD of model.rs, or of another file, becomes NEW
model() {
    [ -z "$ONLY" ] || [ "$ONLY" = "$1" ] || return
    rm -rf "$copy/oracle" && mkdir "$copy/oracle" && cp -R Cargo.toml Cargo.lock build.rs seeds.rs src "$copy/oracle" &&
        ln -sfn "$(cd ../bindings && pwd)" "$copy/bindings" || exit 2
    replace "$copy/oracle/src/${5:-model.rs}" "$3" "$4" || { miss "$1: not in the model"; return; }
    NETKAT_LIB_DIR=$(cd ../target/staticlib && pwd) fault "$1" "$2" "$copy/oracle"
}

original "left One first" desugar \
    '(Expr::One, _) => d2,' \
    '(Expr::One, Expr::Zero) => d1, (Expr::One, _) => d2,'
original "right One kept" desugar \
    '(_, Expr::One) => d1,' \
    ''
original "difference not desugared again" desugar \
    'let d2 = desugar(e2)?;
            Ok(Expr::union(n1, d2))' \
    'let d2 = e2.clone();
            Ok(Expr::union(n1, d2))'
original "xor by complement" desugar \
    'Ok(Expr::difference(Expr::one(), Expr::xor(e1.clone(), e2.clone())))' \
    'Ok(Expr::complement(Expr::xor(e1.clone(), e2.clone())))'
original "padding at the low end" desugar \
    'expanded.resize(expected_bits, false);
                    // Recursively desugar the bit range test' \
    'while expanded.len() < expected_bits { expanded.insert(0, false); }
                    //'
original "alias judged where bound" desugar \
    'let new_env = env.with_alias(alias_name.clone(), *start, *end);' \
    'bit_range_width(*start, *end)?; let new_env = env.with_alias(alias_name.clone(), *start, *end);'
original "if drops One" desugar \
    'Expr::sequence(d_cond, d_then),' \
    'if *d_then == Expr::One { d_cond } else { Expr::sequence(d_cond, d_then) },'
original "cidr length before prefix" desugar \
    'if *prefix_len > width {' \
    'if address.len() != width { return Err(DesugarError { message: "CIDR address has".into() }); } if *prefix_len > width {'
original "range order before width" desugar \
    'if range_start.len() > width ||' \
    'if bits_to_u128(range_start)? > bits_to_u128(range_end)? { return Err(DesugarError { message: "Invalid range: start is greater than end".into() }); } if range_start.len() > width ||'
original "no single value case" desugar \
    'if start_val == end_val {' \
    'if false {'
original "129 bits allowed" desugar \
    '|| width > 128 {' \
    '|| width > 129 {'
original "wildcard up to 128 bits" desugar \
    'for i in 0..width {' \
    'for i in 0..width.min(128) {'
original "panic beyond 128 bits" desugar \
    'if *prefix_len == 0 {' \
    'if width > 128 && *prefix_len == width { panic!("no room"); } if *prefix_len == 0 {'
original "condition judged first" desugar \
    'let d_then = desugar_with_env(then_expr, env)?;' \
    'if !d_cond.is_test_fragment() { return Err(DesugarError { message: "If-then-else condition must".into() }); } let d_then = desugar_with_env(then_expr, env)?;'
original "definition only when used" desugar \
    'let d_def = desugar_with_env(def, env)?;' \
    'let d_def = match desugar_with_env(def, env) { Ok(d) => d, Err(_) => Expr::zero() };'
original "alias shadows variable" desugar \
    'if let Some(expr) = env.lookup_variable(name) {' \
    'if env.lookup_alias(name).is_some() { return Err(DesugarError { message: "Bit range alias '"'"'x".into() }); } if let Some(expr) = env.lookup_variable(name) {'
original "upper bound bit 0" desugar \
    'for i in (0..upper_bound.len()).rev() {' \
    'for i in (0..upper_bound.len()).rev().filter(|i| *i > 0 || upper_bound.len() < 7) {'
original "substitute into own let" expr \
    'Expr::let_in(bound_var.clone(), def.substitute(var, replacement), body.clone())' \
    'Expr::let_in(bound_var.clone(), def.substitute(var, replacement), body.substitute(var, replacement))'
original "substitute under alias" expr \
    'Expr::let_bit_range(alias_name.clone(), *start, *end, body.clone())' \
    'Expr::let_bit_range(alias_name.clone(), *start, *end, body.substitute(var, replacement))'
original "fragment of negation" expr \
    'Expr::TestNegation(e) => e.is_test_fragment(),' \
    'Expr::TestNegation(_) => true,'
original "fields of an alias range" expr \
    '(*end).max(body.num_fields())' \
    'body.num_fields()'
original "subrange end" desugar \
    'sub_start <= sub_end && actual_end <= alias_end' \
    'sub_start <= sub_end && actual_end < alias_end'

ORACLE_SEEDS=$true_seeds
export ORACLE_SEEDS
port WRONG_DRAWN desugar
port WRONG_PLACE desugar
port WRONG_CORE desugar
port BYTE_ON_REFUSAL desugar
port BYTE_BEHIND_ANSWER desugar
port NUMBER_BEHIND_WORK desugar
port VALUE_WITH_REFUSAL check
port ALWAYS_A_TEST check
port WRONG_RESULT substitute
port NEVER_25 num_fields
port WRONG_END compute_subrange

model "literals of 193 bits" PORT \
    'if len > MAX_LITERAL {' \
    'if len > 193 {'
model "literals of 128 bits at most" PORT \
    'if len > MAX_LITERAL {' \
    'if len > 128 {'
model "range patterns on 192 bits" PORT \
    'if width > MAX_RANGE_BITS ||' \
    'if width > 192 ||'

asked="costs 5 ${COUNT:-30000}"
port COST_ONE_MORE cost
port COST_NOT_JOINED cost
port COST_HIGH_HALF_LOST cost
port COST_PREFIX_AS_A_BYTE cost
port COST_BYTE_BEHIND cost
port COST_17_AS_18 cost

# cores that the port made, read back
asked="compare 5 ${COUNT:-30000} 40 1"
port READ_LAST_VALUE read_core
port READ_FIELDS_ONE_LESS read_core
asked="cores 5 ${COUNT:-30000}"
port READ_KIND_16 read_core
port READ_16_AS_2 read_core
port READ_PLACES_FROM_1 read_core
port READ_10_BEFORE_25 read_core
port READ_WRITES_WHILE_JUDGED read_core
port READ_REST_TOUCHED read_core
port READ_BEHIND_LIST read_core
port READ_SHORT_LIST read_core
port READ_ONE_MORE_RECORD read_core
port READ_DEPTH_OF_TERMS read_core
port READ_BYTE_BEHIND read_core
port READ_CORE_CHANGED read_core
model "cores of 65,536 records" PORT \
    'if records.len() == MAX_CORE {' \
    'if records.len() > MAX_CORE {' \
    cores.rs
model "25 before what is left over" PORT \
    'let next = record(&mut rest).map_err(|number| (number, place))?;' \
    'let next = record(&mut rest).map_err(|number| (number, place))?; if next[1] == u32::MAX { return Err((25, place)); }' \
    cores.rs

asked="packets 5 ${COUNT:-30000}"
port PACKETS_FROM_HIGHEST_BIT run_packets
port PACKETS_NEXT_BYTE run_packets
port PACKETS_ROUNDED_DOWN run_packets
port PACKETS_CUT_IGNORED run_packets
port PACKETS_STARTS_IN_32_BITS run_packets
port PACKETS_XOR_AS_UNION run_packets
port PACKETS_OPERANDS_EXCHANGED run_packets
port PACKETS_UNUSED_BIT run_packets
port PACKETS_HALVES_EXCHANGED run_packets
port PACKETS_LAST_LOST run_packets
port PACKETS_50_BEFORE_49 run_packets
port PACKETS_48_BEFORE_10 run_packets
port PACKETS_50_AT_0 run_packets
port PACKETS_DEPTH run_packets
port PACKETS_LIST_COUNTS run_packets
port PACKETS_BEHIND_LIST run_packets
port PACKETS_CHANGED run_packets
port PACKETS_LOW_FIELD_BITS run_packets
port PACKETS_SKIPPED_FORM run_packets
port PACKETS_SKIPPED_KIND run_packets
port PACKETS_SKIPPED_FIELD run_packets
model "65 packets" PORT \
    'if !(1..=MAX_PACKETS).contains(&p.lengths.len()) {' \
    'if !(1..=65).contains(&p.lengths.len()) {' \
    packets.rs
model "the last packet that is too short" PORT \
    'packets.iter().position(' \
    'packets.iter().rposition(' \
    packets.rs

echo "$seen seen, $missed missed"
[ $missed = 0 ]
