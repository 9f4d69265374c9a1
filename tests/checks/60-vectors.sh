#!/bin/sh
# The vectors: what the program `vectors` is run on is what tests/vectors makes, and has every refusal; `tick` gives every output; and
# `vectors` tells a byte that differs, an output cut short, a schedule and an output that are missing.
work=build/vectors-check
rm -rf $work
mkdir -p $work
bad=0
say() {
    echo "vectors: $1"
    bad=1
}

if command -v python3 >/dev/null 2>&1; then
    sh tests/vectors/data.sh $work/made || exit 1
    for part in data stdout; do
        diff -r $work/made/$part crates/vectors/$part >$work/diff || say "crates/vectors/$part is not what tests/vectors/data.sh makes: $(head -n 1 $work/diff)"
    done
else
    echo "vectors: whether crates/vectors/data is what tests/vectors makes is skipped, it needs python3"
fi

r=1
while [ $r -le 17 ]; do
    cat crates/vectors/data/*.out | grep -q "^[0-9]* R $r\$" || say "none is refused $r"
    r=$((r + 1))
done

if sh tests/vectors/run.sh target/bin/tick >build/vectors.log 2>&1; then
    echo "vectors, tick: $(grep -c ': same$' build/vectors.log) the same"
else
    grep -v ': same$' build/vectors.log | head -n 20
    say "tick does not give every output; see build/vectors.log"
fi

program=$PWD/target/bin/vectors
cp -R crates/vectors/data $work/wrong
sed 's/^= 5$/= 4/' crates/vectors/data/run-a.out >$work/wrong/run-a.out
head -c 79 crates/vectors/data/run-b.out >$work/wrong/run-b.out
rm $work/wrong/empty.bytes $work/wrong/waits.out
sed 's/^run-a: same$/run-a: differs at byte 83/
    s/^run-b: same$/run-b: differs at byte 79/
    s/^empty: same$/empty: its schedule is missing, or has more than 65535 bytes/
    s/^waits: same$/waits: its output is missing, or has more than 65535 bytes/' crates/vectors/stdout | sed '$d' >$work/wanted
(cd $work/wrong && "$program") >$work/got
sed '$d' $work/got | cmp -s - $work/wanted || say "the program does not tell what is wrong; see $work/got"
all=$(wc -l <crates/vectors/data/names)
[ "$(tail -n 1 $work/got)" = "$((all - 4)) of $((all)) the same" ] || say "the program counts what is wrong as the same; see $work/got"
[ $bad = 0 ] && echo "vectors: four that were made wrong are told"
exit $bad
