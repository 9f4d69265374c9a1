#!/bin/sh
# Proves and builds tick and trace, and shows with trace a power cut in the middle of a swap: run (a) of document 01.
goal=demo
. tests/need-kit.sh
. tests/programs.sh
mkdir -p build
echo "proving and building tick and trace; the first time this takes minutes (build/tick.log and build/trace.log have the details)"
build_programs tick trace || {
    echo "make demo: not proved; see build/tick.log and build/trace.log" >&2
    exit 1
}
cat <<'TEXT'

A worker swaps the word at address 0 from 0 to 5. After eight steps, when the status Succeeded has been written back, the power fails
(record 12); recovery then finishes the swap (records 13 to 16). A line with a number is a record's answer; below it stands what the
record changed, in the cached copy and in the persisted one, and at the end the value of the word and the whole memory. docs/TRACE.md
says what each line means; the schedule is crates/trace/stdin.

TEXT
exec target/bin/trace <crates/trace/stdin
