#!/bin/sh
# Our programs beside the independent model: the vectors, random schedules, and the ledger followed through what our trace shows.
tick=${OURS_TICK:-target/bin/tick}
trace=${OURS_TRACE:-target/bin/trace}
status=0
for program in "$tick" "$trace"; do
    [ -x "$program" ] || {
        echo "model: there is no program $program"
        exit 1
    }
done

mkdir -p build
command -v gcc >/dev/null 2>&1 || {
    echo "model: skipped, it needs gcc"
    exit 0
}
sh tests/model/build.sh || exit 1
# the model on the vectors (tests/checks/60-vectors.sh has ours)
if sh tests/vectors/run.sh build/model/tick >build/vectors-model.log 2>&1; then
    echo "vectors, model: $(grep -c ': same$' build/vectors-model.log) the same"
else
    grep -v ': same$' build/vectors-model.log | head -n 20
    echo "vectors, model: not all the same; see build/vectors-model.log"
    status=1
fi
sh tests/model/compare.sh 1 "${SEEDS:-3000}" || status=1

# What our trace shows keeps the ledger: it changes only when a Succeeded reaches persisted memory, and every value is the ledger's.
rm -rf build/ledger
mkdir -p build/ledger
build/model/gen 1 300 build/ledger || exit 1
seed=1
while [ "$seed" -le 300 ]; do
    echo "#$seed"
    "$trace" <build/ledger/$seed
    seed=$((seed + 1))
done | build/model/ledger >build/ledger.log || {
    grep VIOLATION build/ledger.log | head -n 5
    status=1
}
grep -E '^[0-9]+ schedules |^violations' build/ledger.log | sed 's/^/ledger: /'
# the ledger's check holds of no input at all: it must have seen every schedule
grep -q '^300 schedules ' build/ledger.log || status=1
exit $status
