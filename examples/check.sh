#!/usr/bin/env bash
# Runs the built program on each case of examples/cases, and on each workload examples/NAME.csv that has its output beside it
# in NAME.txt, and compares what it writes and how it ends.
#
#     examples/check.sh PROGRAM
#
# A case is a folder with the files
#   args         the words, one a line
#   stdin        the standard input (none: it is empty)
#   stdout       what has to stand on standard output, byte for byte (none: nothing)
#   stderr       the same of standard error
#   status       the exit status
#   make-stdin   in place of stdin: a number of zero bytes, or the word `directory`, whose reading fails
#   make-stdout  the word `full`: standard output is a device that takes no byte
# The last line is 'N passed, M failed'. The status is 0 where there was a case and none failed.
set -u

if [ "$#" -ne 1 ]; then
    echo "usage: examples/check.sh PROGRAM" >&2
    exit 2
fi
cases=$(dirname -- "$(realpath -- "$0")")/cases
program=$(realpath -- "$1")
if [ ! -f "$program" ] || [ ! -x "$program" ]; then
    echo "$1 is no program"
    echo "0 passed, 1 failed"
    exit 1
fi
work=$(mktemp -d) || exit 1
trap 'rm -rf -- "$work"' EXIT
: > "$work/nothing"

# The file of a case with this name, or an empty one.
file_or_nothing() {
    if [ -e "$1" ]; then echo "$1"; else echo "$work/nothing"; fi
}

# Makes the standard input of a case where it has no file for it, and says where it stands.
input_of() {
    if [ ! -e "$1/make-stdin" ]; then
        file_or_nothing "$1/stdin"
    elif [ "$(cat "$1/make-stdin")" = directory ]; then
        echo "$work"
    else
        head -c "$(cat "$1/make-stdin")" /dev/zero > "$work/stdin" && echo "$work/stdin"
    fi
}

# Runs a case: its output, its errors and its status stand in the work folder.
run_case() {
    local input output=$work/stdout
    local -a words
    mapfile -t words < "$1/args"
    input=$(input_of "$1")
    : > "$work/stdout"
    if [ -e "$1/make-stdout" ]; then output=/dev/full; fi
    timeout 60 "$program" "${words[@]}" < "$input" > "$output" 2> "$work/stderr"
    echo "$?" > "$work/status"
}

# Compares what a case wants with what the program did.
compare() {
    local wanted same=yes
    for what in stdout stderr status; do
        wanted=$(file_or_nothing "$1/$what")
        diff -u --label wanted --label got "$wanted" "$work/$what" > "$work/difference" && continue
        echo "${1##*/}: $what differs"
        cat "$work/difference"
        same=no
    done
    [ "$same" = yes ]
}

passed=0
failed=0
for case in "$cases"/*/; do
    case=${case%/}
    run_case "$case"
    if compare "$case"; then passed=$((passed + 1)); else failed=$((failed + 1)); fi
done
for workload in "${cases%/cases}"/*.csv; do
    name=${workload##*/}
    case=$work/${name%.csv}
    mkdir -p "$case"
    cp "$workload" "$case/stdin"
    cp "${workload%.csv}.txt" "$case/stdout"
    printf '%s\n' run 1 0 > "$case/args"
    echo 0 > "$case/status"
    run_case "$case"
    if compare "$case"; then passed=$((passed + 1)); else failed=$((failed + 1)); fi
done
echo "$passed passed, $failed failed"
[ "$failed" -eq 0 ] && [ "$passed" -gt 0 ]
