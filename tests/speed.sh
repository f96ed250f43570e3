#!/bin/sh
# Instructions of table_limits on one call or label of each size (docs/PERFORMANCE.md). Needs valgrind.
#     tests/speed.sh [PROGRAM]          PROGRAM is that which rt leaves in its crate's out/ unless given
set -eu

program=$(realpath "${1:-$(dirname "$0")/../crates/table_limits/out/table_limits}")
header=$(realpath "$(dirname "$0")/../include/gemtweed.h")
house() { sed -n "s/^#define GEMTWEED_$1 \([0-9]*\).*/\1/p" "$header"; } # one of the house's numbers
most_nodes=$(house MOST_NODES)
most_entries=$(house MOST_ENTRIES)
most_names=$(house MOST_NAMES)
least_room=$(house LEAST_ROOM)
too_high=$(($(house HIGHEST_MODE) + 1))
# more than any of these tables needs
room=$((($(house NODE_ROOM) + 2 * $(house BAD_ROOM)) * most_nodes + least_room))
folder=$(mktemp -d)
trap 'rm -r "$folder"' EXIT
cd "$folder"

# Eight nodes of other kinds, and then groups of Read, Write, Add, Ult, Ite, Eq, Ext and Bad.
head='(1 2 5 0 0 0) (1 1 1 0 0 0) (21 3 0 0 0 1) (19 2 0 1 0 0) (1 11 9 0 0 0) (20 2 3 0 0 0) (18 2 0 0 0 0) (22 1 1 0 0 0)'
group='2 2 2 0 0 0 3 3 2 0 8+8 0 4 2 8+8 0 0 0 12 1 8+8 10+8 0 0 14 2 11+8 8+8 10+8 0 15 1 0 12+8 0 0 13 2 4 11 0 0 22 1 13+8 0 0 0'

instructions() { # a line of the list
    echo "$1" > limits.list
    valgrind --tool=callgrind --callgrind-out-file=out "$program" > told 2> log
    grep -q '^1 cases, 0 wrong$' told || { echo "wrong answer: $1" >&2; exit 1; }
    sed -n 's/^summary: //p' out
}

# The size, instructions with the work and without it, their difference, and by how much that grows for each one more.
row() {
    work=$(($2 - $3))
    if [ "$last" -eq 0 ]; then
        growth=-
    else
        growth=$(awk "BEGIN { printf \"%.1f\", ($work - $before) / ($1 - $last) }")
    fi
    echo "$1 $2 $3 $work $growth"
    last=$1
    before=$work
}

heading() {
    echo "$1 with without difference growth"
    last=0
    before=0
}

heading nodes
for nodes in $((most_nodes / 8)) $((most_nodes / 4)) $((most_nodes / 2)) "$most_nodes"; do
    table="$nodes $head $((nodes / 8 - 1))($group) 0 0 0 0 0 | 1 0 1 109"
    row "$nodes" "$(instructions "judged 0 $room $room | $table | 0 0 0")" "$(instructions "no_room 0 0 0 | $table | 12 8 0")"
done

heading sequentials
for entries in $((most_entries / 8)) $((most_entries / 4)) $((most_entries / 2)) "$most_entries"; do
    table="$((2 * entries + 1)) (1 2 5 0 0 0) $entries(19 2 0 1 0 0) $entries(20 2 1+1 0 0 0) $entries $entries($((entries + 1))+1) 0 0 0 0"
    longer="$((2 * entries + 1)) (1 2 5 0 0 0) $entries(19 2 0 1 0 0) $entries(20 2 1+1 0 0 0) 0 0 0 $entries $entries($((entries + 1))+1) 0"
    row "$entries" "$(instructions "judged 0 $room $room | $table | 0 0 | 0 0 0")" "$(instructions "inputs 0 $room $room | $longer | 0 0 | 0 0 0")"
done

heading names
for names in $((most_names / 8)) $((most_names / 4)) $((most_names / 2)) "$most_names"; do
    bytes="0 $((names / 256)) $names(8 97 97 97 97 97 97 97 97)"
    row "$names" "$(instructions "judged 0 $least_room $least_room | 6(0) | $bytes | 0 0 0")" "$(instructions "mode $too_high $least_room $least_room | 6(0) | $bytes | 1 0 0")"
done

heading names-before-a-label
for names in $((most_names / 8)) $((most_names / 4)) $((most_names / 2)) "$most_names"; do
    bytes="0 $((names / 256)) $names(8 97 97 97 97 97 97 97 97)"
    row "$names" "$(instructions "label 0 | 1 19 2 0 0 0 $names | $bytes | 8(97) | 8(97)")" "$(instructions "no_name 0 | 1 19 2 0 0 0 0 | $bytes | 8(97) | 8(97)")"
done
