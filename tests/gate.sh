#!/bin/sh
# The whole gate: rt ci once, at the top and over every crate, then every other check on the programs that it built and on the archive.
# The last line is rt ci's.
goal=test
. tests/need-kit.sh
. tests/programs.sh
mkdir -p build

fail() {
    echo "make test: FAILED: $1" >&2
    exit 1
}

: >build/ci.begun
{ rt ci 2>&1; echo $? >build/ci.status; } | tee build/ci.log
[ "$(cat build/ci.status)" = 0 ] || fail "rt ci; see build/ci.log"
last=$(tail -n 1 build/ci.log)
case $last in
[1-9]*' passed, 0 failed') ;;
*) fail "rt ci ended with '$last'" ;;
esac
# an edit that is bad shows nothing, and rt ci passes all the same
if grep -q '^rt: ok.*, [0-9]* bad' build/ci.log; then
    fail "a must-fail edit is bad; see build/ci.log"
fi
grep -q '^rt: ok' build/ci.log || fail "rt ci did not say that it is well"

take_programs tick trace vectors bench || fail "the programs could not be built"
build_archive || fail "the archive could not be built"
for check in tests/checks/*.sh; do
    sh "$check" || fail "$check"
done
echo "$last"
