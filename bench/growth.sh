#!/bin/sh
# Instructions of one call of each operation on terms of growing size, and of reading their cores back, then of Check on range patterns of growing
# width, then of Cost and Desugar on one match, then of 64 packets in one pass, counted by valgrind's callgrind: they repeat.
# Needs what bench/run.sh needs, and valgrind.
here=$(dirname "$0")/../oracle
. "$here/prepare.sh"
cargo build --profile timing --offline --quiet --target-dir "$target" || exit 2
oracle=$target/timing/oracle
terms=$target/terms
rm -rf "$terms" && mkdir -p "$terms" && "$oracle" terms "$terms" || exit 2

# instructions FUNCTION FILE: those of one call of the function, with what it calls
instructions() {
    valgrind --tool=callgrind --callgrind-out-file=/dev/null --toggle-collect="$1" "$oracle" once "$2" 2>&1 > /dev/null |
        sed -n 's/.*Collected : *\([0-9]*\).*/\1/p'
}

# per NUMBER COUNT: how many for each, with one decimal
per() {
    awk -v number="$1" -v count="$2" 'BEGIN { printf "%.1f", number / count }'
}

# each FUNCTION COUNT FILE: the instructions of one call, for each of COUNT bytes or nodes
each() {
    per "$(instructions "$1" "$3")" "$2"
}

echo "| policy | term bytes | core bytes | drawn | desugar | for each drawn node | check, for each term byte | test fragment | field count | substitute |" \
    "read, for each record | read / desugar |"
echo "|---|---|---|---|---|---|---|---|---|---|---|---|"
for family in access_list first_match tenants wide_test lets complement_lets union_lets; do
    for file in $(ls "$terms" | grep "^$family-" | sort -t- -k2 -n); do
        term=$terms/$file
        set -- $("$oracle" once "$term")
        desugar=$(instructions netkat_desugar "$term") read=$(instructions netkat_read_core "$term")
        echo "| ${file%.bin} | $1 | $2 | $3 | $desugar | $(per "$desugar" "$3") |" \
            "$(each netkat_check "$1" "$term") | $(each netkat_is_test_fragment "$1" "$term") | $(each netkat_num_fields "$1" "$term") |" \
            "$(each netkat_substitute "$1" "$term") | $(per "$read" "$4") | $(per "$read" "$desugar") |"
    done
done

echo
echo "| first bit that differs in the bounds | check, 8 fields | 32 fields | 64 fields | 128 fields |"
echo "|---|---|---|---|---|"
for differs in top lowest none; do
    line="| $differs |"
    for width in 8 32 64 128; do
        line="$line $(instructions netkat_check "$terms/bounds_$differs-$width.bin") |"
    done
    echo "$line"
done

echo
echo "| match | fields | nodes | cost | desugar | times |"
echo "|---|---|---|---|---|---|"
for match in dearest middle prefix; do
    for width in 8 32 64 128; do
        term=$terms/match_$match-$width.bin
        set -- $("$oracle" once "$term")
        # a match is asked twice, with other bytes behind its literals
        cost=$(($(instructions netkat_cost "$term") / 2)) desugar=$(instructions netkat_desugar "$term")
        echo "| $match | $width | $3 | $cost | $desugar | $((desugar / cost)) |"
    done
done

echo
echo "| access list | core bytes | records | 64 packets | for each record | read, for each record |"
echo "|---|---|---|---|---|---|"
for packets in captured passing; do
    for entries in 6 12 24 48 96 192; do
        term=$terms/packets_$packets-$entries.bin
        set -- $("$oracle" once "$term")
        run=$(instructions netkat_run_packets "$term")
        echo "| $entries entries, $packets | $2 | $4 | $run | $(per "$run" "$4") | $(each netkat_read_core "$4" "$term") |"
    done
done
