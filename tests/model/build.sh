#!/bin/sh
# Builds the independent model (tick, trace), the generator of schedules and the ledger's check into build/model/; where the static library
# of image recovery is (tests/programs.sh makes it), its comparison with the model and its speed beside it too.
here=tests/model
to=build/model
mkdir -p $to
cc="${CC:-gcc} -std=c99 -D_POSIX_C_SOURCE=200809L -Wall -Wextra -O2 ${MODEL_FLAGS-}"
machine="$here/machine.c $here/steps.c"
$cc -o $to/tick $here/tick.c $here/play.c $machine &&
    $cc -o $to/trace $here/trace.c $here/play.c $machine &&
    $cc -o $to/gen $here/gen.c $here/choose.c $here/contend.c $here/spoil.c $machine &&
    $cc -o $to/ledger $here/ledger.c $here/swaps.c $here/shown.c $here/rare.c || exit 1

library=target/staticlib/libimage.a
[ -f $library ] || exit 0
images="$here/recover.c $here/images.c $here/damage.c $here/choose.c $here/contend.c $machine"
$cc -Iinclude -o $to/compare_images $here/compare_images.c $images $library &&
    $cc -Iinclude -o $to/bench_images $here/bench_images.c $images $library
