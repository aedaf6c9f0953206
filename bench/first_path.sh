#!/bin/sh
# Times two gradings by the built program and by a plain model of it, and prints the times and their ratios. The
# submission is the sum of 16 zeros, and a rule offers another literal for each of them: 65,536 rewritings, on 11
# inputs. In the first grading the submission is right; in the second only the last rewriting is, so all are tried.
#
#     bench/first_path.sh [PROGRAM]
#
# PROGRAM is crates/grader_cli/out/grader_cli unless it is given. MODEL, in the environment, is the path of the
# model, a Python program that takes `--stage N words` and then the words of the command line; N is MODEL_STAGE,
# or 1. Where MODEL isn't set, the model isn't timed.
set -eu
program=$(realpath "${1:-$(dirname "$0")/../crates/grader_cli/out/grader_cli}")
if [ ! -x "$program" ]; then
    echo "no program at $program" >&2
    exit 2
fi
work=$(mktemp -d)
trap 'rm -rf "$work"' EXIT
if [ -n "${MODEL:-}" ]; then
    MODEL=$(realpath "$MODEL")
fi
cd "$work"

printf 'width 6\nturns 4\ndepth 2\ncap 4\nentry f\nparam x int -5..5\n' >b.txt
zeros=0
count=1
while [ "$count" -lt 16 ]; do
    zeros="$zeros + 0"
    count=$((count + 1))
done
printf 'def f(x):\n    return %s\n' "$zeros" >sub.py
printf 'rule lit cost 1: $n => {1}\n' >rules.eml

# Runs a command, whose output is to begin with the line $wanted, and prints its time in microseconds.
timed() {
    before=$(date +%s%N)
    "$@" grade b.txt ref.py sub.py rules.eml cert.txt 200000 >output || true
    after=$(date +%s%N)
    if [ "$(head -n 1 output)" != "$wanted" ]; then
        echo "$1 wrote: $(cat output)" >&2
        exit 1
    fi
    echo $(((after - before) / 1000))
}

# A grading against the reference that returns $2, whose first line is $3.
compare() {
    printf 'def f(x):\n    return %s\n' "$2" >ref.py
    wanted=$3
    program_time=$(timed "$program")
    echo "$1: the program took $program_time microseconds"
    if [ -n "${MODEL:-}" ]; then
        model_time=$(timed python3 "$MODEL" --stage "${MODEL_STAGE:-1}" words)
        echo "$1: the model took $model_time microseconds, $(awk "BEGIN { printf \"%.1f\", $model_time / $program_time }") times as long"
    fi
}

compare "right as it stands" "$zeros" correct
compare "all rewritings tried" "x * 0 + 16" "cost 16"
