#!/bin/sh
# tests/refuse-each.sh [INPUT WORD...]
#
# Runs the built program with these words and this file as standard input: once as it is, and then with its first,
# its second, .. allocation refused, until none is left to refuse. Each answer has to be the full output with its
# status, or status 4 with `fault memory` after a beginning of the output that ends with a line; never another. Then the
# same, where every allocation from that one on is refused. Status 1 where an answer differs, and where no allocation
# was refused.
#
# The full output is the one that a row of crates/rows has for this file and these words, where there is one; else it is
# what the program prints with ample memory. Of `trace` the lines of `play` have to be those of the row.
#
# Under `serve` a refusal ends a job otherwise, and later ones with it, and chance decides whose allocation is refused:
# there tests/served.awk says which lines are allowed; never a mismatch.
#
# Without words: every command on every file of examples/, and what else the command line has, with counts at the end.
# The program is the one that `./suites` runs; SUITES names another, MOST another number of allocations to look at (default 2000), EVERY looks at each
# so many-th of them, AGENTS is another number of agents (default 4), ONLY a part of the files' names.
set -u
here=$(cd "$(dirname "$0")/.." && pwd)
# The program that `./suites` runs: proved, or a checked build, which is made where it is wanting.
chosen() { python3 "$here/tools" choose < /dev/null | while read -r kind path; do [ "$kind" = trial ] || echo "$here/$path"; done; }
most=${MOST:-2000} every=${EVERY:-1}
[ $# -ne 1 ] || { sed -n '2s/^# /usage: /p' "$0" >&2; exit 2; }
program=${SUITES:-$(chosen)}
[ -x "$program" ] || { echo "there is no program '$program': ./suites --prove makes it, or SUITES names another one" >&2; exit 2; }
work=$(mktemp -d) || exit 2
trap 'rm -rf "$work"' EXIT

cc -O1 -shared -fPIC -o "$work/refuse.so" "$here/tests/refuse.c" -ldl 2> "$work/cc" || { cat "$work/cc" >&2; exit 2; }
printf 'fault memory\n' > "$work/memory"
commands=0 rows=0 refused=0 memories=0 wholes=0 others=0 differ=0

# Writes the output of the row that plays this file with these words into $work/row; of `serve`, with any number of agents.
has_row() {
    python3 - "$here/tests" "$@" > "$work/row" << 'END'
import sys
sys.path.insert(0, sys.argv[1])
import played
with open(sys.argv[2], "rb") as file:
    given = file.read()
words = [b"play"] if sys.argv[3:] == ["trace"] else [word.encode() for word in sys.argv[3:]]
# of `serve` also a row with another number of agents, if it is not one of words that ask for nothing
served = words[:1] == [b"serve"]
same = lambda row: row["words"] == words or served and row["words"][:-1] == words[:-1] and row["status"] != 2
found = [row for row in played.rows() if row["input"] == given and same(row)]
found.sort(key=lambda row: row["words"] != words)
if not found:
    sys.exit(1)
sys.stdout.buffer.write(found[0]["output"])
END
}

# Whether the full output is that of the row, as far as the row tells it.
is_known() {
    case $1 in
    trace) grep -v '^[>= ]' "$work/full" | cmp -s - "$work/row" ;;
    serve) cmp -s "$work/full" "$work/row" || awk -v agents="$agents" -v sure=1 -f "$here/tests/served.awk" "$2" "$work/row" "$work/full" ;;
    *) cmp -s "$work/full" "$work/row" ;;
    esac
}

# Whether the answer in $work/given, with the status $1, is one of those that are allowed; $2 allocations were refused.
is_allowed() {
    [ -s "$work/errors" ] && return 1
    [ "$1" -eq "$full_status" ] && cmp -s "$work/given" "$work/full" && return 0
    if [ "$1" -eq 4 ]; then
        tail -c 13 "$work/given" | cmp -s - "$work/memory" || return 1
        size=$(($(wc -c < "$work/given") - 13))
        head -c "$size" "$work/given" > "$work/front"
        [ "$size" -eq 0 ] || [ "$(tail -c 1 "$work/front" | od -An -tx1)" = ' 0a' ] || return 1
    fi
    if [ "$served" -eq 1 ]; then
        [ "$1" -eq 4 ] && set -- 4 "$2" "$work/front" || set -- "$1" "$2" "$work/given"
        [ "$1" -eq 4 ] || [ "$1" -eq 0 ] || return 1
        awk -v agents="$agents" -v status="$1" -v reach="$2" -f "$here/tests/served.awk" "$input" "$work/row" "$3"
        return
    fi
    [ "$1" -eq 4 ] && [ "$size" -lt $(($(wc -c < "$work/full"))) ] && cmp -s -n "$size" "$work/given" "$work/full"
}

# Tells an answer that differs.
tell() {
    differ=$((differ + 1))
    echo "$*: status $status: $(tail -c 200 "$work/given") $(head -c 200 "$work/errors")"
}

# Runs the words $2.. with the input $1, and with each allocation refused in turn.
refuse_each() {
    input=$1 served=0 agents=1
    shift
    words=$*
    known=0
    has_row "$input" "$@" && known=1
    case $1 in
    serve) served=1 agents=$3 ;;
    esac
    set -- "$program" "$@"
    "$@" < "$input" > "$work/full" 2> "$work/errors"
    full_status=$? status=$?
    commands=$((commands + 1)) rows=$((rows + known))
    if [ "$known" -eq 0 ]; then
        cp "$work/full" "$work/row"
    elif ! is_known "${words%% *}" "$input"; then
        cp "$work/full" "$work/given"
        tell "$words < ${input##*/}: with ample memory not what the row says"
    fi
    for reach in one all; do
        number=1 tried=0 whole=0 memory=0 other=0
        while [ "$number" -le "$most" ]; do
            last=$number
            [ "$reach" = all ] && last=999999999
            rm -f "$work/mark"
            REFUSE_FROM=$number REFUSE_TO=$last REFUSE_MARK=$work/mark LD_PRELOAD=$work/refuse.so \
                "$@" < "$input" > "$work/given" 2> "$work/errors"
            status=$?
            [ -e "$work/mark" ] || break
            tried=$((tried + 1))
            if ! is_allowed "$status" "$reach"; then
                tell "$words < ${input##*/}: allocation $number ($reach)"
            elif [ "$status" -eq 4 ]; then
                memory=$((memory + 1))
            elif cmp -s "$work/given" "$work/full"; then
                whole=$((whole + 1))
            else
                other=$((other + 1))
            fi
            number=$((number + every))
        done
        told="$memory times status 4, $whole times the full output"
        [ "$served" -eq 1 ] && told="$told, $other times other ends of jobs"
        echo "$words < ${input##*/}: $reach refused: $tried allocations, $told"
        [ "$tried" -gt 0 ] || tell "$words < ${input##*/}: no allocation was refused ($reach)"
        refused=$((refused + tried)) memories=$((memories + memory)) wholes=$((wholes + whole)) others=$((others + other))
    done
}

if [ $# -ge 2 ]; then
    refuse_each "$@"
else
    for input in "$here"/examples/*/*"${ONLY-}"*; do
        folder=${input%/*}
        case ${folder##*/} in
        session | explore) ;; # tests/session.py, tests/small.py
        acl) refuse_each "$input" acl user:lisa=1001 ;;
        serve) refuse_each "$input" serve --agents "${AGENTS:-4}" ;;
        play)
            refuse_each "$input" play
            refuse_each "$input" trace
            ;;
        *) refuse_each "$input" "${folder##*/}" ;;
        esac
    done
    if [ -z "${ONLY-}" ]; then
        echo 'g:toolies:rw,u:lisa:rw,u::wr,g::r,o::r,m::r' > "$work/list"
        refuse_each "$work/list" acl user:lisa=1001 group:toolies=200
        for command in acl table play 'serve --agents 1' trace 'acl no' 'acl --help' --help no 'trace no' 'trace --help'; do
            refuse_each /dev/null $command
        done
    fi
    echo "$commands commands, $rows with a row, $refused refusals: $memories times status 4, $wholes times the full output, $others times other ends of jobs, $differ differ"
fi
[ "$differ" -eq 0 ] && { [ "$refused" -gt 0 ] || [ $# -ge 2 ]; }
