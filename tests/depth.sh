#!/bin/sh
# How deep a call goes and how it grows (docs/PERFORMANCE.md): instructions and least stack of call_limits on one whole call
# of each size. Needs valgrind.
#     tests/depth.sh [PROGRAM]          PROGRAM is that which rt leaves in its crate's out/ unless given
set -eu

program=$(realpath "${1:-$(dirname "$0")/../crates/call_limits/out/call_limits}")
header=$(realpath "$(dirname "$0")/../include/gemtweed.h")
house() { sed -n "s/^#define GEMTWEED_$1 \([0-9]*\).*/\1/p" "$header"; } # one of the house's numbers
most=$(house MOST_NODES)
node_room=$(house NODE_ROOM)
other_room=$(($(house BAD_ROOM) + $(house LEAST_ROOM)))
folder=$(mktemp -d)
trap 'rm -r "$folder"' EXIT
cd "$folder"

# A line of the list: nodes, those left, replacements, the bad, its condition, writes looked at.
line() {
    room=$((node_room * nodes + other_room))
    echo "call 0 0 $room $room | $nodes $1 0 1 $4 0 0 0 | 1 0 1 97 | 0 0 0 | $nodes $2 2 1 0 1 1 $3 0 1 $4 0 0 1 4 $5 0 0 5 0 0 $6 0 0"
}

# A table that nothing folds in, whose bad is the last node.
as_given() { line "$1" "$1" 0 $((nodes - 1)) $((nodes - 2)) 0; }

bit='(21 1 0 0 0 1)'
word='(21 2 0 0 0 1)'
memory='(21 3 0 0 0 1)'
chain() { # a kind, so many nodes
    nodes=$2
    last=$((nodes - 2))
    bad="(22 1 $last 0 0 0)"
    case $1 in
    nots) as_given "$bit $last(18 1 0+1 0 0 0) $bad" ;;
    adds) as_given "$word $((nodes - 3))(4 2 0+1 0 0 0) (15 1 $((nodes - 3)) 0 0 0) $bad" ;;
    writes) as_given "$memory $word (3 3 0 1 1 0) $((nodes - 6))(3 3 2+1 1 1 0) (2 2 $((nodes - 4)) 1 0 0) (15 1 $((nodes - 3)) 1 0 0) $bad" ;;
    states) as_given "$bit $last(19 1 0+1 1 0 0) $bad" ;;
    conditions) as_given "$bit $last(14 1 0+1 0 0 0) $bad" ;;
    branches) as_given "$bit $last(14 1 0 0 0+1 0) $bad" ;;
    settled)
        head="$bit (1 1 1 0 0 0)"
        true=$((nodes + 1))
        line "$head (14 1 1 0 0 0) $((nodes - 4))(14 1 1 2+1 0 0) $bad" "$head $((nodes - 3))(14 1 $true 0 0 0) (22 1 0 0 0 0)" \
            "$last 1 $true $((nodes - 3))(2+1 0)" $((nodes - 1)) 0 0
        ;;
    hits) # each write is read at once, and its value stored by the next
        pairs=$((nodes / 2 - 4))
        head="$memory (1 2 5 0 0 0) $word (3 3 0 1 2 0) (2 2 3 1 0 0)"
        ult=$((2 * pairs + 5))
        rest="(22 1 $ult 0 0 0) $((nodes - ult - 2))(1 2 7 0 0 0)"
        line "$head $pairs(3 3 3+2 1 4+2 0 2 2 5+2 1 0 0) (12 1 $((ult - 1)) 1 0 0) $rest" \
            "$head $pairs(3 3 3+2 1 2 0 2 2 5+2 1 0 0) (12 1 2 1 0 0) $rest" "$((pairs + 1)) $((pairs + 1))(4+2 2)" \
            $((ult + 1)) "$ult" $((pairs + 1))
        ;;
    misses) # the same writes, read where none of them stores
        pairs=$((nodes / 2 - 5))
        ult=$((2 * pairs + 6))
        table="$memory (1 2 5 0 0 0) $word (1 2 6 0 0 0) (3 3 0 1 2 0) (2 2 4 3 0 0) $pairs(3 3 4+2 1 5+2 0 2 2 6+2 3 0 0) (12 1 $((ult - 1)) 1 0 0) (22 1 $ult 0 0 0) $((nodes - ult - 2))(1 2 7 0 0 0)"
        line "$table" "$table" 0 $((ult + 1)) "$ult" $(((pairs + 1) * (pairs + 2) / 2))
        ;;
    esac
}

right() { "$@" 2> log | grep -q '^1 cases, 0 wrong$'; }

# The least stack, in KiB, under which the program's answer is right.
least() {
    low=0
    high=32768
    while [ $((high - low)) -gt 4 ]; do
        middle=$(((low + high) / 2))
        if (ulimit -S -s $middle; right "$program"); then high=$middle; else low=$middle; fi
    done 2> log
    echo $high
}

chain nots 3 > calls.list
echo "stack of the program itself: $(least)"
half_most=$((most / 2))
echo "chain stack-$half_most stack-$most bytes-a-node"
for kind in nots adds writes states conditions settled branches; do
    chain $kind $half_most > calls.list
    half=$(least)
    chain $kind "$most" > calls.list
    whole=$(least)
    echo "$kind $half $whole $(((whole - half) * 1024 / half_most))"
done

ulimit -S -s 32768
echo "chain nodes instructions a-node"
for kind in nots branches hits misses; do
    for size in $((most / 8)) $((most / 4)) $half_most "$most"; do
        chain $kind "$size" > calls.list
        right valgrind --tool=callgrind --toggle-collect=optimize::optimize::optimize --callgrind-out-file=out "$program" ||
            { echo "wrong answer: $kind $size" >&2; exit 1; }
        told=$(sed -n 's/^summary: //p' out)
        echo "$kind $size $told $((told / size))"
    done
done
