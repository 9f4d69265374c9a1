#!/bin/sh
# compare.sh FROM TO: on each seed's schedule our tick and our trace write what the model's write, byte for byte, and end well.
# OURS_TICK and OURS_TRACE name other programs to hold against the model.
from=${1:?from which seed}
to=${2:?to which seed}
tick=${OURS_TICK:-target/bin/tick}
trace=${OURS_TRACE:-target/bin/trace}
for program in build/model/gen build/model/tick build/model/trace "$tick" "$trace"; do
    [ -x "$program" ] || {
        echo "model: there is no program $program"
        exit 1
    }
done
[ "$from" -le "$to" ] || {
    echo "model: no seeds from $from to $to"
    exit 1
}
work=build/model/compare.$$
trap 'rm -rf $work' EXIT
trap 'exit 1' INT TERM
mkdir -p $work

# one PROGRAM SEED: what it writes for the seed
one() {
    "$1" <"$work/s/$2" || echo "exit status $?"
}

# play PROGRAM FIRST LAST: what it writes for each seed
play() {
    at=$2
    while [ "$at" -le "$3" ]; do
        echo "#$at"
        one "$1" "$at"
        at=$((at + 1))
    done
}

# tell NAME MODEL OURS FIRST LAST: which of these seeds differ
tell() {
    seed=$4
    before=$differ
    while [ "$seed" -le "$5" ]; do
        one "$2" "$seed" >$work/model
        one "$3" "$seed" >$work/ours
        cmp -s $work/model $work/ours || {
            echo "seed $seed differs, $1: $(cmp $work/model $work/ours 2>&1 | sed "s|$work/||g; s|.* differ: ||; s|^cmp: ||")"
            differ=$((differ + 1))
            [ $differ -lt 5 ] || {
                echo "model: seeds $from to $seed, $differ differ; the others were not tried"
                exit 1
            }
        }
        seed=$((seed + 1))
    done
    [ $differ -gt $before ] || {
        echo "seeds $4 to $5, $1: something differed, but not when run again"
        differ=$((differ + 1))
    }
}

differ=0 empty=0 records=0 bytes=0
first=$from
while [ "$first" -le "$to" ]; do
    last=$((first + 99))
    [ "$last" -le "$to" ] || last=$to
    rm -rf $work/s
    mkdir $work/s
    build/model/gen "$first" "$last" $work/s || exit 1
    [ "$(find $work/s -type f | wc -l)" = $((last - first + 1)) ] || {
        echo "model: the generator did not write a schedule for each of the seeds $first to $last"
        exit 1
    }
    for pair in "tick $tick" "trace $trace"; do
        play "build/model/${pair%% *}" "$first" "$last" >$work/all.wanted
        play "${pair#* }" "$first" "$last" >$work/all.got
        cmp -s $work/all.wanted $work/all.got || tell "${pair%% *}" "build/model/${pair%% *}" "${pair#* }" "$first" "$last"
        case $pair in tick*) records=$((records + $(grep -c '^[0-9]' $work/all.wanted))) ;; esac
    done
    empty=$((empty + $(find $work/s -type f -size 0 | wc -l)))
    bytes=$((bytes + $(cat $work/s/* | wc -c)))
    first=$((last + 1))
done
echo "model: seeds $from to $to, $differ differ ($records records, $bytes bytes; $empty schedules are empty)"
# empty input is a case of its own, and rare; were many schedules empty, the comparison would hold of any machine
[ $differ = 0 ] && { [ $((to - from)) -lt 100 ] || [ $((empty * 10)) -le $((to - from + 1)) ]; }
