#!/usr/bin/env bash
# Runs the table of cases, and the examples that have an answer. Each goes through the program, and a run that fails is
# printed. If files are named, only their cases are run. cases/README.md describes the format of a case. The last line
# counts the runs; the exit status is 1 if any failed.
#
# usage: tests/cases.sh [PROGRAM] [FILE.txt ..]
#
# Without PROGRAM it runs the one in crates/rhai_parse/out, which `rt ci` at the top of the repository or `rt run` in
# crates/rhai_parse built last. It stops if a source file has changed since. Without any argument it also runs the cases
# of cases/names through the program in crates/rhai_names_cli/out.
set -u
export LC_ALL=C
ulimit -t 60 # CPU seconds for each run

root=$(cd "$(dirname "$0")/.." && pwd)
folder=$(mktemp -d)
trap 'rm -rf "$folder"' EXIT
passed=0
failed=0

stop() {
    echo "$1"
    echo "0 passed, 1 failed"
    exit 1
}

# Takes the program that was built last in the crate $1.
take_built_program() {
    local changed
    program=$root/crates/$1/out/$1
    [ -x "$program" ] || stop "no program is built: run \`rt run\` in crates/$1, or name one"
    changed=$(find "$root"/crates/*/src -name '*.rt' ! -path '*/crates/*_tests/src/*' -newer "$program" -print -quit)
    [ -z "$changed" ] || stop "the program is older than $changed: run \`rt run\` in crates/$1, or name one"
}

fail() {
    failed=$((failed + 1))
    printf 'failed: %s: %s\n%s\n' "${file##*/}" "$title" "$1"
}

add_to_list() {
    case $1 in
    '% '*) printf '%b' "${1#% }" ;;
    *) printf '%s\n' "${1//  /$'\n'}" ;;
    esac >>"$folder/list"
}

add_to_answer() {
    local bytes
    case $1 in
    '% '*) printf -v bytes '%b' "${1#% }" ;;
    *) bytes=$1$'\n' ;;
    esac
    answer+=$bytes
}

# Runs the program once over the list with the words $1. Compares its output with the answer, and its status with $2.
run() {
    local printed status zero_byte=no
    "$program" $1 <"$folder/list" >"$folder/printed"
    status=$?
    # (this reads the whole file, and succeeds only at a zero byte, which no answer has)
    IFS= read -r -d '' printed <"$folder/printed" && zero_byte=yes
    if [ "$printed" = "$answer" ] && [ "$status" = "$2" ] && [ "$zero_byte" = no ]; then
        passed=$((passed + 1))
    else
        fail "\$$1"$'\n'"wanted, with status $2:"$'\n'"${answer}printed, with status $status:"$'\n'"$printed"
    fi
}

# Makes the runs that have this answer. Called once the whole answer was read.
end_answer() {
    local words status
    case $answer in
    accepted*) status=0 ;;
    refused*) status=1 ;;
    unreadable*) status=2 ;;
    *) status=$other_status ;;
    esac
    if [ -z "$status" ] || [ "${#runs[@]}" = 0 ]; then
        fail "a run and its answer are missing"
    else
        for words in "${runs[@]}"; do run "$words" "$status"; done
    fi
    runs=()
    answer=
}

read_file() {
    local line part=none
    title= runs=() answer=
    while IFS= read -r line || [ -n "$line" ]; do
        case $line in
        '' | '#'*) ;;
        '== '*)
            [ "$part" = none ] || end_answer
            title=${line#== }
            part=list
            : >"$folder/list"
            ;;
        '$'*)
            [ "$part" != answer ] || end_answer
            part=words
            runs+=("${line#?}")
            ;;
        *)
            if [ "$part" = list ]; then
                add_to_list "$line"
            else
                part=answer
                add_to_answer "$line"
            fi
            ;;
        esac
    done <"$file"
    end_answer
}

# Runs the list of the example whose answer is the file $1 as a script, with the default options. Only `modules` runs
# with `options=255`: there variables have to be known.
run_example() {
    local words=script
    file=${1%.out}.tokens
    title='as in the file beside it'
    answer=$(cat "$1")$'\n'
    cp "$file" "$folder/list"
    [ "${file##*/}" != modules.tokens ] || words='script options=255'
    run "$words" 0
}

files=("$root"/tests/cases/*.txt)
answers=("$root"/examples/*.out)
names=() names_program=
if [ $# = 0 ]; then
    names=("$root"/tests/cases/names/*.txt)
    take_built_program rhai_names_cli
    names_program=$program
fi
case ${1:-} in
'' | *.txt) take_built_program rhai_parse ;;
*)
    program=$(realpath "$1")
    [ -x "$program" ] || stop "$1 is no program"
    shift
    ;;
esac
[ $# = 0 ] || files=("$@") answers=()
set -f # no globbing: the words of a run are only split at blanks

other_status= # of an answer with another first word
for file in "${files[@]}"; do read_file; done
for file in "${answers[@]}"; do run_example "$file"; done
other_status=0
program=$names_program
for file in "${names[@]}"; do read_file; done
echo "$passed passed, $failed failed"
[ "$failed" = 0 ]
