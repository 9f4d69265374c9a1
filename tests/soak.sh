#!/bin/sh
# soak.sh FROM TO [JOBS]: random schedules beside the model, seed by seed, on all cores; for each seed of a schedule a hundred random images too.
# Exit status: 0 all the same, 1 something differs (the first seeds of a part that do are named), 2 it could not be run.
from=${1:?from which seed} to=${2:?to which seed}
jobs=${3:-$(nproc 2>/dev/null || echo 1)}
part=500

for number in "$from" "$to" "$jobs"; do
    case $number in
    '' | 0 | *[!0-9]*)
        echo "soak: '$number' is no number from 1 on" >&2
        exit 2
        ;;
    esac
done

if [ "${SOAK_PART-}" = yes ]; then
    # one part, called by xargs below: its first seed is $3, its lines go out at once
    last=$(($3 + part - 1))
    [ "$last" -le "$to" ] || last=$to
    lines=$(sh tests/model/compare.sh "$3" "$last" 2>&1) || bad=yes
    if [ -x build/model/compare_images ]; then
        lines="$lines
$(build/model/compare_images $(($3 * 100)) $((last * 100 + 99)) 2>&1)" || bad=yes
    fi
    echo "$lines" || bad=yes
    [ "${bad-}" != yes ]
    exit
fi

[ "$from" -le "$to" ] || {
    echo "soak: no seeds from '$from' to '$to'" >&2
    exit 2
}
for program in target/bin/tick target/bin/trace; do
    [ -x $program ] || {
        echo "soak: there is no $program: run 'make test' or 'make demo' first" >&2
        exit 2
    }
done
command -v gcc >/dev/null 2>&1 || {
    echo "soak: the model needs gcc" >&2
    exit 2
}
sh tests/model/build.sh || exit 2
parts=$(seq "$from" $part "$to" | wc -l)
wanted=$parts
if [ -x build/model/compare_images ]; then
    wanted=$((2 * parts))
else
    echo "soak: without images; 'make test' makes what they need"
fi
mkdir -p build
# a part that fails makes xargs end with 123, when all parts are done; more than that is xargs' own
seq "$from" $part "$to" | SOAK_PART=yes xargs -P "$jobs" -n 1 sh tests/soak.sh "$from" "$to" >build/soak.log
status=$?
grep -v ' 0 differ' build/soak.log | head -n 20
same=$(grep -c '^[a-z]*: .* 0 differ' build/soak.log)
echo "soak: seeds $from to $to on $jobs cores, $parts parts, $same of $wanted comparisons the same; build/soak.log has each"
[ $status -le 123 ] || exit 2
[ $status = 0 ] && [ "$same" = "$wanted" ] || exit 1
