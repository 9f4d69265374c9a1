#!/bin/sh
# Each program writes, from here too, what its file stdout has, and ends well; one with a folder data is run there.
root=$PWD
mkdir -p build
bad=0
count=0
for main in crates/*/src/main.rt; do
    crate=${main#crates/}
    crate=${crate%%/*}
    count=$((count + 1))
    in=$root/crates/$crate/stdin
    [ -f "$in" ] || in=/dev/null
    room=$root
    [ -d "crates/$crate/data" ] && room=$root/crates/$crate/data
    if [ -f "crates/$crate/stdout" ] && (cd "$room" && "$root/target/bin/$crate" <"$in" >"$root/build/program.out") && cmp -s build/program.out "crates/$crate/stdout"; then
        echo "program $crate: same"
    else
        echo "program $crate: it has no stdout file, ends badly, or writes something else"
        bad=1
    fi
done
[ $count -gt 0 ] || bad=1
exit $bad
