#!/bin/sh
# The wrapper ./optimize_model: its words, exit statuses and output over the program as it stands in target/bin, and, with stand-ins for rt and
# for the program in a temporary folder, links to it, building, and answers that are none. Nothing is proved here. The last line says
# 'wrapper: N tried, 0 wrong, M not tried'; where something is wrong, the exit status is 1.
#     tests/wrapper.sh [WRAPPER]         tries another wrapper than the repository's
# shellcheck disable=SC2016
set -u
unset CDPATH
cd "$(dirname "$0")/.." || exit 1
wrapper=${1:-./optimize_model}
work=$(mktemp -d) && work=$(cd -P "$work" && pwd -P) || exit 1
trap 'rm -rf "$work"' EXIT
trap 'exit 1' HUP INT PIPE TERM
umask 022
chmod 755 "$work"
tried=0 wrong=0 untried=0 bad='' status=0

# What is tried, in one line; 'fault' before it says what is wrong.
fault() { bad="$bad; $1"; }
tell() { # NAME
    tried=$((tried + 1))
    if [ -z "$bad" ]; then
        echo "wrapper: $1: right"
    else
        wrong=$((wrong + 1))
        echo "wrapper: $1: WRONG${bad#;}; it said: $(head -n 3 "$work/err" | cut -c 1-200 | paste -sd '|' -)"
    fi
    bad=''
}
skip() { # NAME WHY
    untried=$((untried + 1))
    echo "wrapper: $1: not tried, as $2"
}

# Calls a wrapper with commands from the folders $path alone, for a minute at most where 'timeout' is at hand; 'run' keeps what becomes of it.
limit=$(command -v timeout) && limit="$limit 60"
call() { # WRAPPER [WORDS...]
    # shellcheck disable=SC2086
    PATH=$path TMPDIR=$work/tmp $limit "$@"
}
run() { # WRAPPER [WORDS...]
    call "$@" <"$input" >"$work/out" 2>"$work/err"
    status=$?
}
status_is() { [ "$status" -eq "$1" ] || fault "status $status for $1"; }
out_is() { cmp -s "$1" "$work/out" || fault "another standard output"; }
err_is_empty() { [ ! -s "$work/err" ] || fault "words on standard error"; }
err_has() { grep -q -e "$1" "$work/err" || fault "no '$1' on standard error"; }
answered() { # STATUS FILE NAME
    status_is "$1"
    out_is "$2"
    err_is_empty
    tell "$3"
}
failed() { # WORD NAME
    status_is 2
    [ ! -s "$work/out" ] || fault "something on standard output"
    err_has "$1"
    tell "$2"
}
# Waits up to 10 seconds for a command to hold.
soon() {
    left=100
    until "$@"; do
        left=$((left - 1))
        [ "$left" -gt 0 ] || return 1
        sleep 0.1 2>/dev/null || sleep 1
    done
}

# A folder of links to commands: a wrapper is called with those alone that it needs, and with rt and git or without.
link_tools() { # FOLDER COMMAND...
    folder=$1
    mkdir -p "$folder"
    shift
    for tool; do
        place=$(command -v "$tool") && case $place in /*) ln -s "$place" "$folder/$tool" ;; esac
    done
}

# A small repository: optimize_model is built on middle, which is built on base; other is of no concern.
make_room() { # FOLDER
    mkdir -p "$1/target/bin"
    cp "$wrapper" "$1/optimize_model"
    printf '%s\n' '# The crates.' 'base:' 'middle opt_level=2: base io # and more' 'optimize_model: middle os' 'other: base' >"$1/crates.txt"
    for crate in base middle optimize_model other; do
        for part in src specs proofs must-fail; do
            mkdir -p "$1/crates/$crate/$part"
            echo "$part of $crate" >"$1/crates/$crate/$part/file"
        done
    done
    make_old "$1"
}
make_old() { find "$1/crates" "$1/crates.txt" -exec touch -t 200101010000 {} +; }

# The stand-ins: a program that reads its input and acts as the file 'act' says, and an rt that notes its calls and acts as 'build' says.
make_stand_ins() {
    mkdir -p "$work/rt"
    cat >"$work/program" <<END
#!/bin/sh
PATH='$PATH'
work='$work'
: >"\$work/started"
bytes=\$(cat | wc -c)
. "\$work/act"
END
    cat >"$work/rt/rt" <<END
#!/bin/sh
PATH='$PATH'
work='$work'
[ "\$1" != version ] || { echo "kit of the stand-in"; exit 0; }
echo "\$* in \$(pwd -P)" >>"\$work/calls"
cat >/dev/null
. "\$work/build"
END
    cat >"$work/well" <<'END'
echo "rt: chose --jobs 2 for base"
awk 'BEGIN { for (i = 1; i <= 300; i++) print "fn base::f" i ": proved" }'
echo "note: large solution" >&2
echo "rt: chose --jobs 4 for middle" >&2
awk 'BEGIN { for (i = 1; i <= 300; i++) print "fn middle::f" i ": proved; rt: this is no line of rt" }'
mkdir -p out
cp "$work/program" out/optimize_model
echo "rt: running out/optimize_model; to give it other input, run that file yourself"
echo "refused 1 0 0"
END
    chmod 755 "$work/program" "$work/rt/rt"
}
acts() { printf '%s\n' "$1" >"$work/act"; }
# The calls of rt since the last time that they were counted.
calls_are() {
    count=0
    [ ! -e "$work/calls" ] || count=$(wc -l <"$work/calls")
    rm -f "$work/calls"
    [ "$count" -eq "$1" ] || fault "rt was called $count times for $1"
}

# ---- the program as it was built, without rt on the PATH
try_input() {
    input=$model
    run "$real"
    answered 0 "$folded" "a model on standard input is accepted"
    input=/dev/null
    run "$real" "$model"
    answered 0 "$folded" "a model in a file is accepted"
    run "$real" -- "$model"
    answered 0 "$folded" "a file after --"
    cp "$model" "$work/a model"
    cp "$model" "$work/-model"
    run "$real" "$work/a model"
    answered 0 "$folded" "a file with a blank in its name"
    (cd "$work" && run "$real" -- -model && [ "$status" -eq 0 ] && out_is "$folded" && [ -z "$bad" ]) || fault "not accepted"
    tell "a file after -- whose name begins with -"
    input=$model
    run "$real" -
    answered 0 "$folded" "- is standard input"
    echo '0 1 1 11 256 0 0 0 0 0 0 0 0 0' >"$work/faulty"
    echo 'refused 5 1 0' >"$work/refusal"
    run "$real" "$work/faulty"
    answered 1 "$work/refusal" "a refused model has status 1"
    echo 'refused 1 0 0' >"$work/refusal"
    : >"$work/empty"
    run "$real" "$work/empty"
    answered 1 "$work/refusal" "an empty file is refused by the program"
    input=$work/empty
    run "$real"
    answered 1 "$work/refusal" "an empty standard input is refused by the program"
}

try_failing_input() {
    input=$work
    run "$real"
    err_has '^standard input: '
    failed '^optimize_model: .*standard input' "a folder on standard input cannot be read, and the program's own word is shown"
    input=/dev/null
    run "$real" "$work/no such file"
    failed "no such file'" "a file that is not there is named"
    run "$real" ''
    failed '^optimize_model: ' "a file without a name"
    run "$real" "$work/tmp"
    failed "$work/tmp' is a folder" "a folder is named"
    call "$real" <&- >"$work/out" 2>"$work/err"
    status=$?
    failed 'standard input' "a closed standard input"
    cp "$model" "$work/secret"
    chmod 000 "$work/secret"
    name="a file that may not be read is named"
    if [ "$(id -u)" -ne 0 ]; then
        run "$real" "$work/secret"
        failed "$work/secret" "$name"
    elif setpriv --reuid=65534 --regid=65534 --clear-groups test -x "$real" 2>/dev/null; then
        nobody=$(command -v setpriv)
        run "$nobody" --reuid=65534 --regid=65534 --clear-groups "$real" "$work/secret"
        failed "$work/secret" "$name"
    else
        skip "$name" "root may read every file and cannot be another user here"
    fi
}

try_failing_output() {
    input=$model
    for words in "" --help --version; do
        # shellcheck disable=SC2086
        call "$real" $words <"$input" >/dev/full 2>"$work/err"
        status=$?
        : >"$work/out"
        failed '^optimize_model: .*standard output' "a full disk${words:+ under $words}"
    done
    call "$real" <"$input" >&- 2>"$work/err"
    status=$?
    failed '^optimize_model: .*standard output' "a closed standard output"
    call "$real" <"$input" >"$work/out" 2>&-
    status=$?
    : >"$work/err"
    answered 0 "$folded" "a closed standard error"
}

# The model is sent, and the wrapper called, once the pipe's other end is closed.
try_closed_pipes() {
    : >"$work/out"
    {
        soon test -e "$work/gone"
        cat "$model"
    } | {
        call "$real" 2>"$work/err"
        echo "$?" >"$work/ended"
    } | {
        exec <&-
        : >"$work/gone"
    }
    status=$(cat "$work/ended")
    failed '^optimize_model: .*standard output' "a closed pipe"
    rm "$work/gone"
    {
        soon test -e "$work/gone"
        call "$real" "$work/no such file" 2>&1 >"$work/out"
        echo "$?" >"$work/ended"
    } | {
        exec <&-
        : >"$work/gone"
    }
    status=$(cat "$work/ended")
    status_is 2
    tell "a closed pipe for standard error"
}

try_words() {
    input=/dev/null
    run "$real" --help
    status_is 0
    err_is_empty
    for text in '^usage: optimize_model' '--version' '0 accepted' '1 refused' 'minutes'; do
        grep -q -e "$text" "$work/out" || fault "no '$text'"
    done
    tell "--help"
    mv "$work/out" "$work/help"
    run "$real" -h
    answered 0 "$work/help" "-h is --help"
    for option in -x --helps --version=1 -hx; do
        run "$real" "$option" "$model"
        failed "$option" "there is no option $option"
    done
    run "$real" "$model" "$model"
    failed 'one file' "two files"
    run "$real" - "$model"
    failed 'one file' "standard input and a file"
    run "$real" -- "$model" --help
    failed 'one file' "--help after -- is a file's name"
}

# ---- what --version says
try_version() {
    room=$work/versioned
    make_room "$room"
    path=$work/tools
    run "$room/optimize_model" --version
    grep -q '^commit: .*git is not at hand' "$work/out" || fault "no word that git is missing"
    grep -q '^kit: .*rt is not at hand' "$work/out" || fault "no word that rt is missing"
    status_is 0
    err_is_empty
    tell "--version without git and rt"
    command -v git >/dev/null 2>&1 || { skip "--version with git" "git is not at hand"; return; }
    path=$work/rt:$work/git:$work/tools
    run "$room/optimize_model" --version
    grep -q '^commit: .*no git repository' "$work/out" || fault "no word that it is no repository"
    grep -q '^kit: kit of the stand-in$' "$work/out" || fault "another kit"
    status_is 0
    tell "--version outside a git repository, with rt"
    commit=$(
        unset GIT_DIR GIT_WORK_TREE GIT_INDEX_FILE
        export GIT_CONFIG_NOSYSTEM=1 GIT_CONFIG_GLOBAL=/dev/null
        cd "$room" && git init -q && git add . && git -c user.name=A -c user.email=a@b -c commit.gpgsign=false commit -q -m A && git rev-parse HEAD
    ) 2>"$work/err" || fault "git made no repository"
    run "$room/optimize_model" --version
    grep -q -x "commit: $commit" "$work/out" || fault "another commit"
    status_is 0
    tell "--version says the commit"
    echo more >>"$room/crates/base/src/file"
    run "$room/optimize_model" --version
    grep -q -x "commit: $commit, with changes" "$work/out" || fault "no word about changes"
    status_is 0
    tell "--version says that there are changes"
}

# ---- links to it, over the stand-in for the program
try_links() {
    room="$work/a folder/with blanks in it"
    make_room "$room"
    cp "$work/program" "$room/target/bin/optimize_model"
    acts 'cat "$work/answer"'
    path=$work/tools input=$model
    mkdir -p "$work/links/deep down" "$work/bin"
    ln -s "$room/optimize_model" "$work/links/absolute"
    ln -s "../../a folder/with blanks in it/optimize_model" "$work/links/deep down/relative"
    ln -s "deep down/relative" "$work/links/twice"
    ln -s "$work/links/twice" "$work/bin/fold_it"
    ln -s "links/deep down" "$work/linked folder"
    run "$room/optimize_model"
    answered 0 "$work/answer" "called in a folder with blanks in its name"
    run "$work/links/absolute"
    answered 0 "$work/answer" "called through a link"
    run "$work/links/deep down/relative"
    answered 0 "$work/answer" "called through a relative link"
    run "$work/links/twice"
    answered 0 "$work/answer" "called through two relative links"
    run "$work/linked folder/relative"
    answered 0 "$work/answer" "called through a relative link in a linked folder"
    path=$work/bin:$work/tools
    run sh -c 'cd / && fold_it'
    answered 0 "$work/answer" "called by name through three links on the PATH"
    run sh -c 'cd "$1" && sh optimize_model' sh "$room"
    answered 0 "$work/answer" "called as sh optimize_model"
    CDPATH=$work:/ && export CDPATH
    run sh -c 'cd "$1" >/dev/null && links/twice' sh "$work"
    unset CDPATH
    answered 0 "$work/answer" "called while CDPATH is set"
}

# ---- answers and ends of the stand-in for the program
try_answers() {
    path=$work/tools input=$model
    awk 'BEGIN { print "accepted"; for (i = 1; i <= 8; i++) print i; while (n++ < 43003) printf "7 "; print 12 }' >"$work/large"
    [ "$(wc -c <"$work/large")" -eq 86034 ] || fault "the test's own answer has another size"
    acts 'cat "$work/large"'
    run "$room/optimize_model"
    answered 0 "$work/large" "an answer of 86,034 bytes is whole"
    acts 'cat "$work/answer"; echo "a word of the program" >&2'
    run "$room/optimize_model"
    status_is 0
    out_is "$work/answer"
    err_has '^a word of the program$'
    tell "what the program says on standard error is shown"
    acts 'echo "standard input: Input/output error" >&2'
    run "$room/optimize_model" "$model"
    err_has '^standard input: Input/output error$'
    failed "^optimize_model: .*$model" "no answer, and the file is named"
    while read -r act; do
        acts "${act#*: }"
        run "$room/optimize_model"
        failed '^optimize_model: no whole answer' "no answer: ${act%%: *}"
    done <<'END'
killed while it wrote: head -n 4 "$work/answer"; kill -KILL $$
ended with a status, its answer whole: cat "$work/answer"; exit 3
a section too few: head -n 9 "$work/answer"
a line too many: cat "$work/answer"; echo 1
no end of the last line: printf "%s" "$(cat "$work/answer")"
a line that is empty: sed "s/^4 .*//" "$work/answer"; echo 1
a word among the numbers: sed "s/7/seven/" "$work/answer"
a refusal without a position: echo "refused 5 1"
a refusal with a word: echo "refused 5 1 zero"
a refusal with a number too many: echo "refused 5 1 0 0"
a refusal that is cut off: printf "refused 5 1 0"
a refusal and more: echo "refused 5 1 0"; echo 1
END
    acts 'cat "$work/answer"'
}

# Interrupted while the program waits for input, whose other end is held open until then.
try_interrupt() {
    acts 'cat "$work/answer"'
    mkfifo "$work/fifo"
    exec 5<>"$work/fifo"
    rm -f "$work/ended" "$work/started"
    input=$work/fifo
    {
        run sh -c 'echo $$ >"$1"; exec "$2"' sh "$work/pid" "$room/optimize_model"
        echo "$status" >"$work/ended"
    } 2>/dev/null 5>&- &
    soon test -e "$work/started"
    kill -TERM "$(cat "$work/pid")" 2>/dev/null || fault "it had ended before"
    soon test -s "$work/ended" || fault "it went on"
    exec 5>&-
    wait
    status=$(cat "$work/ended")
    [ "$status" -gt 128 ] || fault "status $status"
    [ ! -s "$work/out" ] || fault "something on standard output"
    tell "interrupted while it waits for input"
}

# ---- building, with the stand-in for rt
try_building() {
    room=$work/built
    make_room "$room"
    program=$room/target/bin/optimize_model
    acts 'echo "refused 1 0 $((bytes))"'
    echo 'refused 1 0 6' >"$work/refusal"
    echo 1 2 3 >"$work/short"
    input=$work/short
    path=$work/tools
    run "$room/optimize_model"
    failed 'rt is not on the PATH' "not built, and rt is missing"
    run "$room/optimize_model" --help
    answered 0 "$work/help" "--help needs no program"
    path=$work/rt:$work/tools
    cp "$work/well" "$work/build"
    run "$room/optimize_model"
    status_is 1
    out_is "$work/refusal"
    grep -q -x "run in $room/crates/optimize_model" "$work/calls" 2>/dev/null || fault "rt was called otherwise"
    calls_are 1
    tell "not built: it is built, and the input is left to the program"
    head -n 1 "$work/err" | grep -q '^optimize_model: .*minutes' || fault "the first line does not say how long it takes"
    printf '%s\n' 'rt: chose --jobs 2 for base' 'rt: chose --jobs 4 for middle' >"$work/lines"
    sed 1d "$work/err" | cmp -s - "$work/lines" || fault "other lines than those of rt, $(wc -l <"$work/err") in all"
    tell "what is shown of a build: how long it takes, and the lines of rt"
    awk 'END { exit NR != 605 }' "$room"/target/*.log 2>/dev/null || fault "not every line is in the log"
    tell "the whole log is below target"
    path=$work/tools
    run "$room/optimize_model"
    answered 1 "$work/refusal" "built: it is not built again, and needs no rt"
}

# Builds again when something is newer, and then no more.
rebuilds() { # NAME
    run "$room/optimize_model"
    status_is 1
    out_is "$work/refusal"
    calls_are 1
    run "$room/optimize_model"
    err_is_empty
    calls_are 0
    tell "built again, once: $1"
    make_old "$room"
    touch -t 200201010000 "$program"
}

try_rebuilding() {
    path=$work/rt:$work/tools
    make_old "$room"
    touch -t 200201010000 "$program"
    run "$room/optimize_model"
    calls_are 0
    answered 1 "$work/refusal" "not built again: nothing is newer"
    for newer in optimize_model/src middle/specs base/src base/specs base/proofs; do
        touch "$room/crates/$newer/file"
        rebuilds "crates/$newer is newer"
    done
    touch "$room/crates.txt"
    rebuilds "crates.txt is newer"
    rm "$room/crates/base/proofs/file"
    rebuilds "a source was removed"
    touch "$room/crates/other/src/file" "$room/crates/base/must-fail/file"
    run "$room/optimize_model"
    calls_are 0
    answered 1 "$work/refusal" "not built again: a crate that it is not built on, and a must-fail edit, are newer"
    rm "$program"
    rebuilds "the program is gone, though rt's own is there"
    { cat "$work/well"; echo 'sleep 1; touch ../base/src/file; sleep 1'; } >"$work/build"
    touch "$room/crates/middle/src/file"
    run "$room/optimize_model"
    cp "$work/well" "$work/build"
    run "$room/optimize_model"
    calls_are 2
    tell "built again: a source was changed while it was built"
    make_old "$room"
}

try_failing_builds() {
    { sed '6,$d' "$work/well"; echo 'echo "rt: the library middle did not build, so nothing above it was checked"; exit 1'; } >"$work/build"
    touch "$room/crates/middle/src/file"
    run "$room/optimize_model"
    err_has '^rt: the library middle did not build'
    log=$(sed -n "s|.*\($room/target/[^ ;,]*\).*|\1|p" "$work/err" | tail -n 1)
    awk 'END { exit NR != 604 }' "${log:-/dev/null}" 2>/dev/null || fault "no log is named that has every line"
    calls_are 1
    failed '^optimize_model: .*could not be built' "a build that fails: the program that is there is not run, and the log is named"
    touch -t 203801010000 "$program"
    run "$room/optimize_model"
    calls_are 1
    failed '^optimize_model: .*could not be built' "after a build that failed it is built again, whatever the program's time is"
    path=$work/tools
    run "$room/optimize_model"
    failed 'rt is not on the PATH' "to be built again, and rt is missing"
    path=$work/rt:$work/tools
    echo 'echo "rt: running out/optimize_model"' >"$work/build"
    rm "$program" "$room/crates/optimize_model/out/optimize_model"
    run "$room/optimize_model"
    failed '^optimize_model: .*could not be built' "a build that leaves no program"
    cp "$work/well" "$work/build"
    run "$room/optimize_model"
    status_is 1
    out_is "$work/refusal"
    tell "built again after builds that failed"
}

# The stand-in for rt waits after its first line until that was looked for.
try_progress() {
    {
        head -n 1 "$work/well"
        echo 'left=300; until [ -e "$work/go" ] || [ "$left" -eq 0 ]; do left=$((left - 1)); sleep 0.1 || sleep 1; done'
        sed 1d "$work/well"
    } >"$work/build"
    touch "$room/crates/middle/src/file"
    touch -t 200201010000 "$program"
    : >"$work/err"
    run "$room/optimize_model" &
    soon grep -q '^rt: chose --jobs 2 for base' "$work/err" || fault "the line came late"
    : >"$work/go"
    wait
    tell "rt's lines are shown as they come"
}

model=$PWD/crates/optimize_model/stdin folded=$PWD/crates/optimize_model/stdout
input=$model path=$work/tools real=$work/real/optimize_model
mkdir "$work/tmp"
chmod 777 "$work/tmp"
: >"$work/err"
link_tools "$work/tools" sh awk cat cp find mkdir mv readlink rm tee touch
link_tools "$work/git" git
make_stand_ins
awk 'BEGIN { print "accepted"; for (i = 1; i <= 9; i++) print i, 7, i }' >"$work/answer"
make_room "$work/real"
if cp target/bin/optimize_model "$work/real/target/bin/optimize_model" 2>"$work/err"; then
    try_input
    try_failing_input
    try_failing_output
    try_closed_pipes
else
    fault "it is not built"
    tell "target/bin/optimize_model"
fi
try_words
try_version
try_links
try_answers
try_interrupt
try_building
try_rebuilding
try_failing_builds
try_progress
[ -z "$(ls -A "$work/tmp")" ] || fault "$(ls -A "$work/tmp")"
tell "nothing is left among the temporary files"
echo "wrapper: $tried tried, $wrong wrong, $untried not tried"
[ "$wrong" -eq 0 ]
