#!/bin/sh
# Nanoseconds an event, and tick beside the model's tick on one long schedule; all timed from outside, the best of some rounds.
goal=bench
. tests/need-kit.sh
. tests/programs.sh
mkdir -p build
build_programs bench tick || exit 1

# once INPUT PROGRAM: the time of one run, in nanoseconds; what it writes goes nowhere, so that no disk is timed
once() {
    start=$(date +%s%N)
    "$2" <"$1" >/dev/null
    end=$(date +%s%N)
    echo $((end - start))
}

# least A B: the smaller one; A may be empty
least() {
    if [ -n "$1" ] && [ "$1" -le "$2" ]; then echo "$1"; else echo "$2"; fi
}

# tenths N: N tenths as a decimal
tenths() {
    echo "$(($1 / 10)).$(($1 % 10))"
}

events=20000000
echo $events >build/bench.in
time=
for round in 1 2 3 4 5; do
    time=$(least "$time" "$(once build/bench.in target/bin/bench)")
done
echo "machine: $events contended events, $(tenths $((time * 10 / events))) ns an event, checksum $(target/bin/bench <build/bench.in)"

command -v gcc >/dev/null 2>&1 || {
    echo "tick: not timed, the model needs gcc"
    exit 0
}
sh tests/model/build.sh || exit 1
build/model/gen -n 5000000 1 >build/bench.schedule || exit 1
# in turns, so that both meet the same moods of the machine: the best of each, and the middle one of the rounds' ratios
ours=
model=
: >build/bench.ratios
for round in 1 2 3 4 5 6 7 8 9 10 11 12 13 14 15 16 17 18 19 20 21; do
    a=$(once build/bench.schedule target/bin/tick)
    b=$(once build/bench.schedule build/model/tick)
    ours=$(least "$ours" "$a")
    model=$(least "$model" "$b")
    awk "BEGIN { printf \"%.3f\\n\", $a / $b }" >>build/bench.ratios
done
middle=$(sort -n build/bench.ratios | sed -n 11p)
target/bin/tick <build/bench.schedule >build/bench.ours
build/model/tick <build/bench.schedule >build/bench.out
cmp -s build/bench.out build/bench.ours || {
    echo "tick: its output is not the model's"
    exit 1
}
records=$(($(wc -l <build/bench.out) - 1))
echo "tick: $records records, $(tenths $((ours * 10 / records))) ns a record; the model in C, gcc -O2: $(tenths $((model * 10 / records))) ns; ratio $(awk "BEGIN { printf \"%.2f\", $ours / $model }") of the best, $middle in the middle of 21 rounds"

build_archive || {
    echo "recovery: not timed, its archive could not be built"
    exit 1
}
sh tests/model/build.sh && build/model/bench_images
