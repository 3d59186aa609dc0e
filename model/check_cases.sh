#!/bin/sh
# Makes the cases of the tools on sessions and of the once-only cells anew from the
# model and compares them with the ones kept in crates/test_tools and
# crates/test_once, and likewise what crates/test_cells, crates/bench_cells and the
# programs shake, session, moments, nudge and bus print and the pairs in examples/c.
# Ends with 1, naming the first difference, if data, args, a stdin, a stdout or
# the pairs differ.
set -u
here=$(cd "$(dirname "$0")" && pwd) || exit 1
all=$(mktemp -d) || exit 1
trap 'rm -rf "$all"' EXIT

# compare MAKER CRATE: what MAKER writes, and what CRATE keeps
compare() {
    made=$all/$2
    kept=$here/../crates/$2
    python3 -B "$here/$1" "$made" || exit 1

    if ! first=$(diff -rq "$made/data" "$kept/data"); then
        echo "check_cases: data of $2 differ: $(printf '%s\n' "$first" | head -n 1)"
        exit 1
    fi
    for file in args stdin; do
        if [ -f "$made/$file" ] && ! first=$(cmp "$made/$file" "$kept/$file" 2>&1); then
            echo "check_cases: $file of $2 differ: $first"
            exit 1
        fi
    done
    if ! cmp -s "$made/stdout" "$kept/stdout"; then
        if [ ! -f "$kept/stdout" ]; then
            echo "check_cases: there is no stdout of $2"
            exit 1
        fi
        # the line, and the case it belongs to
        line=$(cmp "$made/stdout" "$kept/stdout" 2>&1 | sed 's/.*line //;s/[^0-9].*//')
        name=$(head -n "${line:-1}" "$made/stdout" | grep '^# ' | tail -n 1)
        name=${name:-# standard input}
        echo "check_cases: stdout of $2 differs at line ${line:-1}, case ${name#\# }"
        echo "  model: $(sed -n "${line:-1}p" "$made/stdout")"
        echo "  kept:  $(sed -n "${line:-1}p" "$kept/stdout")"
        exit 1
    fi
}

compare make_tool_cases.py test_tools
compare make_once_cases.py test_once

# printed MODEL CRATE: what CRATE keeps as printed for its stored arguments and
# standard input
printed() {
    kept=$here/../crates/$2
    words=
    input=/dev/null
    if [ -f "$kept/args" ]; then words=$(cat "$kept/args"); fi
    if [ -f "$kept/stdin" ]; then input=$kept/stdin; fi
    python3 -B "$here/$1" $words <"$input" >"$all/printed" || exit 1
    if ! first=$(cmp "$all/printed" "$kept/stdout" 2>&1); then
        echo "check_cases: stdout of $2 differs: $first"
        exit 1
    fi
}

printed shaker.py shake
printed cells_loop.py bench_cells
for tool in session moments nudge bus; do
    printed $tool.py $tool
done

# the pairs of counts that are asked from C
kept=$here/../examples/c/pairs
python3 -B "$here/make_rate_pairs.py" "$all/pairs" || exit 1
if ! first=$(cmp "$all/pairs" "$kept" 2>&1); then
    echo "check_cases: pairs of examples/c differ: $first"
    exit 1
fi

# what the entries answer to wrong numbers and unfit states
made=$all/cells
kept=$here/../crates/test_cells
python3 -B "$here/cells_cases.py" <"$kept/stdin" >"$made" || exit 1
if ! cmp -s "$made" "$kept/stdout"; then
    if [ ! -f "$kept/stdout" ]; then
        echo "check_cases: there is no stdout of test_cells"
        exit 1
    fi
    # the first line after those that are the same
    line=$(awk 'NR == FNR { made[++n] = $0; next }
                same == n || made[same + 1] != $0 { exit }
                { same++ }
                END { print same + 1 }' "$made" "$kept/stdout")
    echo "check_cases: stdout of test_cells differs at line $line"
    echo "  model: $(sed -n "${line}p" "$made")"
    echo "  kept:  $(sed -n "${line}p" "$kept/stdout")"
    exit 1
fi
echo "check_cases: data, args, stdin, every stdout and the pairs are the model's"
