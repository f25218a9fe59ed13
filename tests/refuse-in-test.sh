#!/bin/sh
# tests/refuse-in-test.sh [CRATE TEST]
#
# Runs one built test of a crate (`rt test` builds them, to crates/CRATE/out/CRATE_tests) with its first, its second, ..
# allocation refused, until none is left to refuse: it has to pass, since what memory was refused to is called again, or to
# stop for what it lacks itself. Then the same, where every allocation from that one on is refused: then a test stops for
# lack of memory, or passes where it wants none, and a call that answers otherwise than it should is still told. Prints how
# many were refused; status 1 where a test stopped for anything else. As
#
#     tests/refuse-in-test.sh run_tests locks::the_replies_are_the_servers
#
# Without words: all tests that are written for it. TESTS names another built file of tests.
set -u
[ $# -eq 2 ] || [ $# -eq 0 ] || { sed -n '2s/^# /usage: /p' "$0" >&2; exit 2; }
here=$(cd "$(dirname "$0")/.." && pwd)
work=$(mktemp -d) || exit 2
trap 'rm -rf "$work"' EXIT
cc -O1 -shared -fPIC -o "$work/refuse.so" "$here/tests/refuse.c" -ldl || exit 2
tests=0 refused=0 passes=0 stops=0 differ=0

# What a test says that stops for what it lacks itself, among that the names that it cannot add to a table of names.
lacks() { grep -q -e 'memory' -e 'what a test wants' -e 'is_ok()' -e '^lisa$' -e '^toolies$' -e '^the longest$' "$work/said"; }

# Runs the test $2 of the crate $1, and with each allocation refused in turn.
refuse_each() {
    program=${TESTS:-$here/crates/$1/out/${1}_tests}
    [ -x "$program" ] || { echo "this needs $program, which rt test in crates/$1 proves and builds"; [ -n "${IF_POSSIBLE-}" ] && exit 0; exit 2; }
    "$program" "$2" > "$work/said" 2>&1 || { cat "$work/said" >&2; exit 2; }
    tests=$((tests + 1))
    for reach in one all; do
        call=1 passed=0 stopped=0
        while :; do
            last=$call
            [ $reach = all ] && last=999999999
            rm -f "$work/mark"
            LD_PRELOAD="$work/refuse.so" REFUSE_FROM=$call REFUSE_TO=$last REFUSE_MARK="$work/mark" "$program" "$2" > "$work/said" 2>&1
            status=$?
            [ -e "$work/mark" ] || break
            if [ $status -eq 0 ]; then
                passed=$((passed + 1))
            elif lacks; then
                stopped=$((stopped + 1))
            else
                differ=$((differ + 1))
                echo "$2: allocation $call refused ($reach): status $status"
                cat "$work/said"
            fi
            call=$((call + 1))
        done
        echo "$1 $2: $reach refused: $((call - 1)) allocations, $passed times it passed, $stopped times it lacked memory itself"
        if [ "$call" -eq 1 ]; then
            differ=$((differ + 1))
            echo "$2: no allocation was refused ($reach)"
        fi
        refused=$((refused + call - 1)) passes=$((passes + passed)) stops=$((stops + stopped))
    done
}

if [ $# -eq 2 ]; then
    refuse_each "$1" "$2"
else
    refuse_each library_tests list_text::a_list_is_read_where_memory_was_refused
    refuse_each run_tests worlds::both_sides_of_the_deciding_step
    refuse_each run_tests locks::the_replies_are_the_servers
    refuse_each run_tests runs::a_list_beside_a_sweep
    refuse_each run_tests overlap::an_open_gate_gives_a_run
    echo "$tests tests, $refused refusals: $passes times a test passed, $stops times it lacked memory itself, $differ differ"
fi
[ $differ -eq 0 ] && [ $refused -gt 0 ]
