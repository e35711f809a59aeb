#!/bin/bash
# Runs crates/probe/out/probe, which `rt ci` and `rt run` leave there, on stored terms and compares all that it prints with the stored
# answers: the lines of oracle/vectors/program.txt, and the cases at the end. Prints what differs, and last `N passed, M failed`; ends with
# 1 if a case failed.
set -u
cd "$(dirname "$0")/.." || exit 1
passed=0 failed=0

# The name of a case and what is to be printed. The term is standard input.
prints() {
    local got
    got=$(crates/probe/out/probe; echo "status $?")
    if [ "$got" = "$2"$'\n'"status 0" ]; then
        passed=$((passed + 1))
    else
        failed=$((failed + 1))
        printf 'probe, %s: printed\n%s\nexpected\n%s\n' "$1" "$got" "$2"
    fi
}

# A line is a term in hexadecimal, ` => `, and what is printed, its lines joined by ` | `. `-` is the empty term.
while read -r term _ answer; do
    case $term in '#') continue ;; -) term= ;; esac
    prints "${term:0:40}" "${answer/ | /$'\n'}" < <(printf "$(sed 's/../\\x&/g' <<< "$term")")
done < oracle/vectors/program.txt

core=0107010b01082506050000000101080506060000002506070000000125050800000001010b010705060500000001072506060000000105060700000000
prints 'the example of the README' $'ok 15 61\n'$core < examples/prefix.term
prints 'an unbound variable' 'no 12 0' < <(printf '\001\024')
prints 'the longest term that is read' 'no 8 1' < <(head -c 8192 /dev/zero)
prints 'one byte more' long < <(head -c 8193 /dev/zero)
prints 'no bytes' 'no 1 0' < /dev/null

# A label stack of 192 bits, of which a prefix of 2 tests the fields 190 and 191; a test of 193 bits, all of them zero.
prints 'a literal of 192 bits' $'ok 3 15\n01080506be0000002506bf00000001' \
    < <(printf '\x79\x19\xc0\0\0\0\x01\x02\xc0\xff\xff\xff\xff'; head -c 19 /dev/zero; printf '\x80')
prints 'a literal of 193 bits' 'no 5 0' < <(printf '\x49\x18\xc1\0\0\0\xc1'; head -c 25 /dev/zero)

echo "$passed passed, $failed failed"
[ "$failed" -eq 0 ]
