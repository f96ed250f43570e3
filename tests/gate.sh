#!/bin/sh
# The gate's own logic, tried in a tree with a copy of .ci/run where rt, cc, cargo and every part are small scripts that stand in; and that of the
# edits (tests/edits.sh), in a tree of two crates with an rt that stands in.
#     tests/gate.sh        a line for each thing tried; the exit status is 0 if none is wrong
# shellcheck disable=SC2016
set -u
cd "$(dirname "$0")/.." || exit 1
work=$(mktemp -d) || exit 1
trap 'rm -rf "$work"' EXIT
tree=$work/tree
bin=$work/bin
tried=0 wrong=0

script() { # FILE TEXT
    rm -f "$1"
    printf '#!/bin/sh\n%s\n' "$2" >"$1" && chmod +x "$1"
}

# The script of a part.
file() { # PART
    case $1 in constants | laws | quotes) echo "$tree/tests/$1.py" ;; *) echo "$tree/tests/$1.sh" ;; esac
}

# What a part does, once it has noted that it was run.
does() { # PART TEXT
    case $1 in
    ci) echo "$2" >"$work/rt.ci" ;;
    *) script "$(file "$1")" "echo $1 >>'$work/ran'; $2" ;;
    esac
}

# A tree where every part passes, with what an earlier run left. No other programs are on the PATH than those in bin.
fresh() {
    rm -rf "$tree" "$bin" "$work/tmp" "$work/ran"
    mkdir -p "$tree/.ci" "$tree/tests" "$tree/target/bin" "$tree/crates/optimize_model/out" "$bin" "$work/tmp"
    cp .ci/run "$tree/.ci/run"
    touch "$tree/target/bin/optimize_model" "$tree/target/optimize_model.unfinished"
    for program in awk cat cp dirname env grep mkdir mktemp rm sed tail tee; do ln -s "$(command -v "$program")" "$bin/$program"; done
    for program in cc cargo python3; do script "$bin/$program" 'exit 1'; done
    script "$bin/rt" '[ $# -eq 1 ] || exit 1; echo $1 >>'"'$work/ran'; . '$work'/rt."'$1'
    for each in gate quotes constants library wrapper; do does $each "echo $each as expected"; done
    does laws '[ "$1" = target/bin/optimize_model ] && [ "$(cat target/bin/optimize_model)" = built ] && [ ! -e target/optimize_model.unfinished ] && echo laws as expected'
    does edits '[ -e crates/optimize_model/out/optimize_model ] && echo edits as expected'
    does ci "$found_it"'; echo a crate; echo "$ok"; echo 3 passed, 0 failed'
}

# What rt ci must find, nothing taken away of what an earlier run left; what it says and makes.
found_it='[ -e target/optimize_model.unfinished ] && [ ! -s target/bin/optimize_model ] || exit 1; echo built >crates/optimize_model/out/optimize_model'
found_it="$found_it; ok='rt: ok; handles allowed: none; must-fail edits: 40 refused; every proof and must-fail edit was done in this run'"

run() { # [NAME=VALUE]...
    env -i PATH="$bin" TMPDIR="$work/tmp" "$@" "$tree/.ci/run" >"$work/told" 2>&1
    status=$?
    ran=$(sort "$work/ran" 2>/dev/null | paste -sd' ' -)
    last=$(tail -n 1 "$work/told")
}

# A line about what was tried, and all that was said if it was wrong.
tell() { # WHAT RIGHT
    tried=$((tried + 1))
    if [ "$2" = yes ]; then
        echo "gate: $1: exit status $status"
    else
        wrong=$((wrong + 1))
        echo "gate: $1: WRONG: exit status $status; it ran $ran, and said"
        cat "$work/told"
    fi
}

# The same of the gate; then a tree as before.
report() { # WHAT RIGHT
    tell "$1" "$2"
    fresh
}

# The gate must pass, having run the parts that are named.
passes() { # WHAT PARTS [NAME=VALUE]...
    what=$1 parts=$2 right=no
    shift 2
    run "$@"
    [ "$status" -ne 0 ] || [ "$last" != '3 passed, 0 failed' ] || [ "$ran" != "$parts" ] || right=yes
    report "$what" "$right"
}

# The gate must fail, and its last line say why with these words; or, where that is what is tried, it is killed itself.
fails() { # WHAT WORDS [NAME=VALUE]...
    what=$1 words=$2 right=no
    shift 2
    run "$@"
    case $status/$last in 0/*) ;; *"/.ci/run: "*"$words"*) right=yes ;; 137/*) case $what in who*) right=yes ;; esac ;; esac
    report "$what" "$right"
}

every='ci constants edits gate laws library quotes wrapper'
fresh
passes 'all parts pass' "$every"
for part in $every; do
    does "$part" 'echo 3 passed, 0 failed; exit 1'
    fails "$part fails" "$part (status '1')"
    does "$part" 'echo 3 passed, 0 failed; kill -9 $$'
    fails "$part is killed" "$part (status '137')"
    does "$part" 'echo 3 passed, 0 failed; kill -9 $PPID'
    fails "who runs $part is killed" "$part (status '')"
done
for part in constants edits gate laws library quotes wrapper; do
    rm "$(file "$part")"
    fails "there is no script of $part" "$part (status '127')"
done

does edits 'mkdir "$1.status"'
fails 'the status of edits cannot be written' "edits (status '')"
cat=$(command -v cat)
for other in '' '0 0' '00' zero; do
    rm "$bin/cat"
    script "$bin/cat" "case \$1 in */edits.status) printf '$other' ;; *) exec '$cat' \"\$@\" ;; esac"
    fails "the status of edits is '$other'" "edits (status '$other')"
done
script "$bin/tee" 'exec cat'
fails 'the log of rt ci cannot be written' "the last line of rt ci is ''"

for line in '0 passed, 0 failed' '3 passed, 1 failed' '3 passed, 10 failed' '3 failed, 0 passed' 'passed, 0 failed' ' passed, 0 failed' \
    '-3 passed, 0 failed' '3.0 passed, 0 failed' '3 passed, 0 failed, 1 left' '3' ''; do
    does ci "$found_it; echo \"\$ok\"; echo '$line'"
    fails "rt ci ends with '$line'" "the last line of rt ci is '$line'"
done
does ci :
fails 'rt ci says nothing' "the last line of rt ci is ''"
does ci 'echo 3 passed, 0 failed; echo more'
fails 'rt ci says more after its last line' "the last line of rt ci is 'more'"
does ci 'echo 2 passed, 1 failed; exit 1'
run
right=no
[ "$status" -ne 1 ] || [ "$last" != '2 passed, 1 failed' ] || [ "$ran" != 'ci constants gate quotes' ] || right=yes
report "rt ci fails, and its line is the last" "$right"
does ci 'echo 3 passed, 0 failed'
fails "rt ci does not say 'rt: ok'" "no line that begins with 'rt: ok'"
for edits in '40 refused, 2 bad' '40 refused, 3 of them only by a limit, 12 bad' '0 refused, 10 bad'; do
    does ci "$found_it; echo 'rt: ok; handles allowed: none; must-fail edits: $edits; the others are kept'; echo 3 passed, 0 failed"
    fails "rt ci's must-fail edits are $edits" "are bad: they say nothing"
done
for edits in '; must-fail edits: 40 refused, 3 of them only by a limit' '; must-fail edits: 40 refused, 0 bad' ''; do
    does ci "$found_it; echo 'rt: ok; handles allowed: none$edits; done in this run: 1 of the 2 proofs, 3 bad'; echo 3 passed, 0 failed"
    passes "rt ci says 'rt: ok; handles allowed: none$edits; ..'" "$every"
done
does ci 'echo "rt: ok"; echo 3 passed, 0 failed'
fails 'rt ci leaves no program' "program (status '1')"

for tool in cc cargo; do
    rm "$bin/$tool"
    fails "no $tool" "'$tool'"
    rm "$bin/$tool"
    fails "no $tool, and the skip is not asked for" "'$tool'" GEMTWEED_SKIP_LIBRARY=0
    rm "$bin/$tool"
    passes "no $tool, and the skip is asked for" 'ci constants edits gate laws quotes wrapper' GEMTWEED_SKIP_LIBRARY=1
done
rm "$bin/python3"
fails 'no python3' "'python3'"
rm "$bin/rt"
fails 'no rt' "'rt'"
rm "$bin/rt"
fails 'no rt, and the skip is asked for' "'rt'" GEMTWEED_SKIP_LIBRARY=1
fails 'the temporary folder is no folder' 'no folder' TMPDIR="$bin/rt"
rm "$bin/mktemp"
fails 'no mktemp' 'no folder'

# The edits' own logic: a tree with the crate top, built on low, and one edit of it. The rt that stands in refuses what says two, with what the file
# said has, and says what the file proved has of anything else. What a check of an edit left is to be gone at the next check.
edits_tree() {
    rm -rf "$tree"
    mkdir -p "$tree/tests" "$tree/crates/low/src" "$tree/crates/top/src" "$tree/crates/top/edits" "$tree/crates/top/out"
    cp tests/edits.sh "$tree/tests/"
    printf '# the crates\ntop: low\nlow:\n' >"$tree/crates.txt"
    echo one >"$tree/crates/top/src/lib.rt"
    printf 'refused: fn top::f at returns\nfile: src/lib.rt\nold: one\nnew: two\n' >"$tree/crates/top/edits/wrong.edit"
    says 'fn top::f: no proof: expected answers in ./proofs/f/Answers.antt; `search` did not prove `returns`'
    echo logic=proved >"$work/proved"
    script "$bin/rt" '[ "$*" = check ] || exit 2
        [ "${PWD##*/}" = top ] && [ -f ../../crates.txt ] && [ -d ../low/src ] && [ ! -e out/edited ] || exit 2
        mkdir -p out && touch out/checked
        if ! grep -q two src/lib.rt; then cat '"'$work/proved'"'; grep -q =proved '"'$work/proved'"'; exit; fi
        [ -f out/checked ] && touch out/edited
        cat '"'$work/said'"'
        echo logic=not-proved
        exit 1'
}

# What the prover says of the edit, a line each.
says() { printf '%s\n' "$@" >"$work/said"; }

# The place that the edit names, and what the file says beside its one word.
names() { # PLACE [TEXT]
    printf 'refused: %s\nfile: src/lib.rt\nold: one\nnew: two\n' "$1" >"$tree/crates/top/edits/wrong.edit"
    [ $# -lt 2 ] || printf '%s\none\n' "$2" >"$tree/crates/top/src/lib.rt"
}

# What the edits say last, and in the line of the edit, under a limit of time: they must end.
edits() { # WHAT STATUS LAST [WORDS]
    what=$1 expected=$2 words=$3 right=no
    PATH="$bin:$PATH" TMPDIR="$work/tmp" timeout 60 "$tree/tests/edits.sh" "$work/edits" >"$work/told" 2>&1
    status=$? ran=edits last=$(tail -n 1 "$work/told")
    [ "$status" -ne "$expected" ] || [ "$last" != "$words" ] || ! grep -qF -e "${4:-$words}" "$work/told" || right=yes
    tell "$what" "$right"
    rm -rf "$work/edits"
    edits_tree
}
well='edits: 1 refused'
badly='edits: 0 refused, 1 FAILED'

edits_tree
edits 'an edit is refused at its place' 0 "$well" 'refused at top::f: returns,'
says './proofs/f/Answers.antt:3:1: error: `returns-then-x-lt5-clause-ok`: no' './proofs/f/Answers.antt:9:1: error: `returns-2`: no'
edits 'it is refused at two of its returns' 0 "$well" 'refused at top::f: returns,'
says './proofs/f/Answers.antt:3:1: error: `g-requires-2`: no' 'fn top::f: not proved' 'fn top::h: no proof: it calls `top::f`, which is not proved'
names 'fn top::f at g-requires'
edits 'it is refused at a call' 0 "$well" 'refused at top::f: g-requires,'
says './proofs/Laws.antt:3:1: error: `law`: no' './proofs/Laws.antt:9:1: error: 1 declaration that depends on `law`, which was rejected, was not checked: more' \
    './proofs/Laws.antt:9:1: error: 2 declarations that depend on `law`, which was not admitted, were not checked: more, most'
names 'proofs/Laws.antt at law'
edits 'it is refused at a law' 0 "$well" 'refused at proofs/Laws.antt: law,'
says 'fn top::f: no proof: expected answers in ./proofs/m/+pair/Answers.antt; `search` did not prove `g-loop-i-preserved`' \
    'fn top::m::g: no proof: expected answers in ./proofs/m/+pair/Answers.antt; `search` did not prove `g-loop-i-preserved`'
names 'fn top::m::g at loop-i-preserved' '#[cycle(pair)]'
edits 'it is refused at a function that is proved with another' 0 "$well" 'refused at top::m::g: loop-i-preserved,'
says './proofs/m/+pair/Answers.antt:3:1: error: `law-of_g`: no' 'fn top::m::g: not proved' 'fn top::m::h: not proved'
names 'proofs/m/+pair/Answers.antt at law-of_g' '#[cycle(pair)]'
edits 'it is refused at a law of two functions that are proved together' 0 "$well" 'refused at proofs/m/+pair/Answers.antt: law-of_g,'
says './proofs/m/+g/Answers.antt:3:1: error: `g-requires`: no'
names 'fn top::m::g at g-requires'
edits 'it is refused at a function that calls itself' 0 "$well" 'refused at top::m::g: g-requires,'
says './proofs/f/Answers.antt:3:1: error: `g-requires`: no'
edits 'it is refused elsewhere' 1 "$badly" 'REFUSED ELSEWHERE: fn top::f at g-requires; the edit says fn top::f at returns,'
says 'fn top::f: no proof: expected answers in ./proofs/f/Answers.antt; `search` did not prove `returns`, `g-requires`'
edits 'it is refused at another place too' 1 "$badly" 'REFUSED ELSEWHERE: fn top::f at g-requires, fn top::f at returns;'
says './proofs/f/Answers.antt:3:1: error: expected a term'
edits 'it is refused for an error without a name' 1 "$badly" 'REFUSED ELSEWHERE: fn top::f at no name'
says './proofs/f/Answers.antt:3:1: error: `returns`: `goal.returns`: module `Goals` has no `returns` that can be named from here'
edits 'it is refused for a name alone' 1 "$badly" 'BAD EDIT: only a name that it took away is missing at fn top::f at returns,'
says 'fn top::f: not proved'
edits 'it is refused nowhere' 1 "$badly" 'REFUSED ELSEWHERE: ;'
names 'fn top::f at returns'
sed 's/new: two/new: three/' "$tree/crates/top/edits/wrong.edit" >"$work/edit" && mv "$work/edit" "$tree/crates/top/edits/wrong.edit"
edits 'an edit is not refused' 1 "$badly" 'NOT REFUSED'
sed 's/old: one/old: four/' "$tree/crates/top/edits/wrong.edit" >"$work/edit" && mv "$work/edit" "$tree/crates/top/edits/wrong.edit"
edits 'an edit does not fit' 1 "$badly" 'BAD EDIT'
cp "$tree/crates/top/edits/wrong.edit" "$tree/crates/top/edits/again.edit"
cp "$tree/crates/top/edits/wrong.edit" "$tree/crates/top/edits/once_more.edit"
edits 'three edits, and each finds what was there before' 0 'edits: 3 refused'
echo logic=not-proved >"$work/proved"
edits 'the crate is not proved as it stands' 1 "$badly" 'not tried'
script "$bin/rt" 'kill -9 $PPID'
edits 'who proves the crate is killed' 1 "$badly" 'not tried'
script "$bin/rt" 'grep -q two src/lib.rt && kill -9 $PPID; echo logic=proved'
edits 'who tries the edit is killed' 1 "$badly"
mkdir -p "$tree/crates/stray/edits"
edits 'edits of a crate that is not listed' 1 'edits: crates/stray/edits belongs to no crate of crates.txt'
rm -r "$tree/crates/top/edits"
edits 'no crate has edits' 1 'edits: no crate has edits'

echo "gate: $tried tried, $wrong wrong"
[ "$wrong" -eq 0 ]
