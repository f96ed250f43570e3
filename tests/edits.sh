#!/bin/sh
# Wrong edits of crates, those in a folder edits/, each of which the prover must refuse at the places that the edit names. Of a must-fail edit rt tells
# whether it is refused, not where. Here a crate is proved once, and each edit is checked over the work that this check kept in out/.
#     tests/edits.sh [FOLDER [CRATE]...]           works in FOLDER, which is kept and lies outside the repository; a temporary one unless given. With
#                                                  names of crates their edits alone
# An edit, crates/CRATE/edits/NAME.edit, has the form of a must-fail edit, and for each place that it leaves without a proof a line
#     refused: fn CRATE::MODULE::FUNCTION at GOAL
#     refused: proofs/FILE.antt at NAME
# where the goal of a function stands without its branch, its clause and its number ('returns' is what the function ensures, at any of its returns), and
# NAME is a law's. A proof that names what the edit took away shows nothing: a place that falls for that alone makes the edit a bad one.
set -u
LC_ALL=C
export LC_ALL
cd "$(dirname "$0")/.." || exit 1

# Proves a crate as it stands; what it is built on is proved with it.
prove() { # CRATE
    began=$(date +%s)
    (cd "$work/one/crates/$1" && rt check) >"$work/$1.log" 2>&1 </dev/null
    status=$?
    if [ "$status" -ne 0 ] || ! grep -q '^logic=proved' "$work/$1.log"; then
        echo "edits: $1 is not proved as it stands (exit $status)"
        tail -n 5 "$work/$1.log"
        return 1
    fi
    echo "edits: $1 proved as it stands, $(($(date +%s) - began)) s"
}

# The crate and what its check kept, as they were before an edit.
restore() { # FOLDER CRATE
    rm -rf "$1/crates/$2"
    cp -Rp "$work/kept/crates/$2" "$1/crates/$2"
}

# Puts NEW for the text OLD, which FILE must have exactly once.
replace() { # FILE OLD NEW
    OLD=$2 NEW=$3 awk '
        { text = text $0 "\n" }
        END {
            old = ENVIRON["OLD"]
            if (old == "") exit 3
            at = index(text, old)
            if (!at) exit 3
            rest = substr(text, at + length(old))
            if (index(rest, old)) exit 4
            printf "%s%s%s", substr(text, 1, at - 1), ENVIRON["NEW"], rest
        }' "$1" >"$1.edited" && mv "$1.edited" "$1"
}

# Applies an edit to a copy of its crate; what is wrong with the edit is printed.
apply() { # CRATE-FOLDER EDIT
    grep -q '^refused: ' "$2" || { echo "it has no 'refused:' line"; return; }
    f='' old='' pairs=0
    while IFS= read -r line || [ -n "$line" ]; do
        case $line in
        'file: '*) f=${line#file: } ;;
        'old: '*) old=${line#old: } ;;
        'new:'*)
            new=${line#new:}
            case /$f/ in */../*) echo "a 'file:' line leads out of the crate"; return ;; esac
            case $f in src/* | specs/* | proofs/*) ;; *) echo "a 'file:' line names no file under src/, specs/ or proofs/"; return ;; esac
            [ -f "$1/$f" ] || { echo "a 'file:' line names no file of the crate"; return; }
            replace "$1/$f" "$old" "${new# }"
            case $? in
            0) ;;
            3) echo "an 'old:' text is not in $f"; return ;;
            *) echo "an 'old:' text is in $f more than once"; return ;;
            esac
            old='' pairs=$((pairs + 1))
            ;;
        *) ;;
        esac
    done <"$2"
    [ "$pairs" -gt 0 ] || echo "it has no 'old:' and 'new:' pair"
}

# The functions of a crate that are proved together: the names that their attribute gives their folders of proofs.
cycles() { # CRATE
    cat "crates/$1/src"/*.rt | sed -n 's/^ *#\[cycle(\([a-z0-9_]*\))\].*/\1/p' | sort -u | tr '\n' ' '
}

# The places without a proof in what the prover said, with 'name: ' before one where it only misses a name. An error that follows from another one says
# that something 'was not checked'. In the folder of functions that are proved together a goal begins with its function's name, and what does not is a
# law of that file.
places() { # CRATE LOG
    awk -v crate="$1" -v cycles="$(cycles "$1")" '
        BEGIN {
            n = split(cycles, each, " ")
            for (i = 1; i <= n; i++) together["+" each[i]] = 1
        }
        function of_function(file) { return file ~ /^proofs\/.*\/(Answers|Invariants|Proof)\.antt$/ || file ~ /^proofs\/.*\/Proof\/[A-Za-z0-9]*\.antt$/ }
        function kind(goal) {
            if (goal ~ /^returns(-|$)/) return "returns"
            sub(/-(clause|then|else|in|in_[a-z]+)(-.*)?$/, "", goal)
            sub(/-[0-9]+$/, "", goal)
            return goal
        }
        function place(file, name,    n, part, i, fn, whose) {
            sub(/^\.\//, "", file)
            if (!of_function(file)) return file " at " name
            n = split(file, part, "/")
            fn = crate
            for (i = 2; i < n && part[i] != "Proof"; i++) {
                if (part[i] in together) {
                    whose = substr(name, 1, index(name, "-") - 1)
                    if (!((fn "::" whose) in functions)) return file " at " name
                    part[i] = whose
                    name = substr(name, index(name, "-") + 1)
                }
                sub(/^\+/, "", part[i])
                fn = fn "::" part[i]
            }
            return "fn " fn " at " kind(name)
        }
        NR == FNR {
            if (/^fn [^ ]*: /) functions[substr($2, 1, length($2) - 1)] = 1
            next
        }
        /: error: / && !/: error: [0-9]+ declarations? that depends? on .* not checked/ {
            at = index($0, ": error: ")
            file = substr($0, 1, at - 1)
            said = substr($0, at + 9)
            sub(/:[0-9]+:[0-9]+$/, "", file)
            if (said !~ /^`[^`]*`: /) { print place(file, "no name: " substr(said, 1, 80)); next }
            n = split(said, word, "`")
            missing = said ~ /(^| )(is not in scope|has no field `|has no `[^`]*` that can be named|is no name|was not admitted)/
            print (missing ? "name: " : "") place(file, word[2])
        }
        /^fn [^ ]*: no proof: expected answers in / && / did not prove `/ {
            sub(/;$/, "", $8)
            n = split(substr($0, index($0, " did not prove ")), word, "`")
            for (i = 2; i <= n; i += 2) print place($8, word[i])
        }' "$2" "$2" | sort -u
}

on_one_line() { paste -sd, - | sed 's/,/, /g'; }

# One line about one edit; status 0 if it is refused where it says.
try() { # FOLDER CRATE EDIT
    label=$2/$(basename "$3" .edit)
    log=$work/told/$label.log
    bad=$(apply "$1/crates/$2" "$3")
    began=$(date +%s)
    [ -n "$bad" ] || (cd "$1/crates/$2" && rt check) >"$log" 2>&1 </dev/null
    status=$?
    took=$(($(date +%s) - began))
    restore "$1" "$2"
    [ -z "$bad" ] || { echo "edit $label: BAD EDIT: $bad"; return 1; }
    if [ "$status" -eq 0 ]; then
        echo "edit $label: NOT REFUSED: the crate is still proved with this edit, $took s"
        return 1
    elif [ "$status" -ne 1 ] || ! grep -q '^logic=not-proved' "$log"; then
        echo "edit $label: BAD EDIT: it did not reach the prover (exit $status); the first lines of what was said:"
        head -n 8 "$log"
        return 1
    fi
    all=$(places "$2" "$log")
    found=$(echo "$all" | grep -v '^name: ')
    nameless=$(echo "$all" | sed -n 's/^name: //p' | while IFS= read -r line; do echo "$found" | grep -qxF -e "$line" || echo "$line"; done)
    named=$(sed -n 's/^refused: //p' "$3" | sort -u)
    if [ -n "$nameless" ]; then
        echo "edit $label: BAD EDIT: only a name that it took away is missing at $(echo "$nameless" | on_one_line), $took s"
        return 1
    elif [ "$found" != "$named" ]; then
        echo "edit $label: REFUSED ELSEWHERE: $(echo "$found" | on_one_line); the edit says $(echo "$named" | on_one_line), $took s"
        return 1
    fi
    echo "edit $label: refused at $(echo "$found" | sed 's/^fn //; s/ at /: /' | on_one_line), $took s"
}

# Both folders go through the same edits; whichever comes to one first has taken it. What is said of each is kept.
work_in() { # FOLDER
    for crate in $crates; do
        [ -f "$work/told/$crate.proved" ] || continue
        for edit in "crates/$crate/edits"/*.edit; do
            told=$work/told/$crate/$(basename "$edit" .edit)
            mkdir "$told.taken" 2>/dev/null || continue
            try "$1" "$crate" "$edit" >"$told" && mv "$told" "$told.refused"
        done
    done
}

give_up() { echo "edits: $*"; exit 1; }

if [ $# -gt 0 ]; then
    mkdir -p "$1" && work=$(cd "$1" && pwd -P) || exit 1
    shift
else
    work=$(mktemp -d) || exit 1
    trap 'rm -rf "$work"' EXIT
    trap 'exit 1' HUP INT TERM
fi
case $work/ in "$(pwd -P)"/*) give_up "$work lies in the repository, where rt ci takes no other copy of its files" ;; esac
rm -rf "$work/told" "$work/one" "$work/two" "$work/kept"

# The crates with edits, each after what it is built on.
crates=''
for crate in $(sed -n 's/^\([a-z0-9_][a-z0-9_]*\)[ :].*/\1/p' crates.txt); do
    [ -d "crates/$crate/edits" ] || continue
    mkdir -p "$work/told/$crate" || exit 1
    case " $* " in '  ' | *" $crate "*) crates="$crates $crate" ;; esac
done
[ -n "$crates" ] || give_up "no crate has edits"
for folder in crates/*/edits; do
    crate=${folder#crates/}
    [ -d "$work/told/${crate%/edits}" ] || give_up "$folder belongs to no crate of crates.txt"
done

# A copy of the crates, where those with edits are proved; rt builds what they are built on there too. Then two edits at a time. What proves a crate or
# tries edits is a shell of its own, so that its end is known however it comes.
for crate in crates/*/; do
    mkdir -p "$work/one/$crate" || give_up "$work cannot be written"
    for part in src specs proofs; do
        [ ! -d "$crate$part" ] || cp -R "$crate$part" "$work/one/$crate" || give_up "$work cannot be written"
    done
done
cp crates.txt "$work/one/" || give_up "$work cannot be written"
[ ! -f HANDLES ] || cp HANDLES "$work/one/" || give_up "$work cannot be written"
for crate in $crates; do
    (prove "$crate") && touch "$work/told/$crate.proved"
done
for folder in kept two; do
    cp -Rp "$work/one" "$work/$folder" || give_up "$work cannot be written"
done
(work_in "$work/two") &
(work_in "$work/one")
wait

refused=0 failed=0
for crate in $crates; do
    for edit in "crates/$crate/edits"/*.edit; do
        told=$work/told/$crate/$(basename "$edit" .edit)
        if [ -f "$told.refused" ]; then
            cat "$told.refused"
            refused=$((refused + 1))
        else
            if [ -f "$told" ]; then cat "$told"; else echo "edit $crate/$(basename "$edit" .edit): not tried"; fi
            failed=$((failed + 1))
        fi
    done
done
[ "$failed" -eq 0 ] || { echo "edits: $refused refused, $failed FAILED"; exit 1; }
echo "edits: $refused refused"
