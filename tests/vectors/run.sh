#!/bin/sh
# run.sh PROGRAM: `tick` on each schedule that the program `vectors` is run on (tests/vectors/data.sh makes them), its whole output
# against the expected one. A line for each: same, or the first line that differs. Exit 1 on any.
program=${1:?the program to run}
data=crates/vectors/data
work=build/vectors
mkdir -p $work
bad=0
[ -x "$program" ] || {
    echo "vectors: there is no program $program"
    exit 1
}
[ -s "$data/names" ] || {
    echo "vectors: there is no list $data/names"
    exit 1
}

# compare NAME SCHEDULE WANTED
compare() {
    "$program" <"$2" >$work/got
    status=$?
    if cmp -s "$3" $work/got && [ $status = 0 ]; then
        echo "$1: same"
        return
    fi
    bad=1
    awk -v name="$1" -v status=$status -v wanted_file="$3" '
        function show(text, there) { return there ? "'\''" text "'\''" : "nothing" }
        BEGIN {
            got_file = ARGV[1]
            for (line = 1; ; line++) {
                wanted_there = (getline wanted < wanted_file) > 0
                got_there = (getline got < got_file) > 0
                if (!wanted_there && !got_there) break
                if (wanted_there != got_there || wanted != got) {
                    print name ": line " line " is " show(got, got_there) ", should be " show(wanted, wanted_there)
                    exit
                }
            }
            print name ": " (status == 0 ? "the ends of lines differ" : "exit status " status)
        }' $work/got
}

while read -r name; do
    compare "$name" "$data/$name.bytes" "$data/$name.out"
done <"$data/names"

# Every unknown kind after a setup, and every kind but 00 first, with a body that would be long enough for any record.
body='\001\001\001\001\001\001\001\001\001\001\001\001\001\001\001\001\001\001'
wrong=0
kind=1
while [ $kind -le 255 ]; do
    byte="\\$((kind / 64))$((kind / 8 % 8))$((kind % 8))"
    printf "$byte$body" >$work/first
    printf "\\000\\001\\001\\001$byte$body" >$work/later
    [ "$("$program" <$work/first)" = '0 R 3' ] || wrong=$kind
    [ $kind -le 12 ] || [ "$("$program" <$work/later | tr '\n' ,)" = '0 OK,1 R 3,= 0,' ] || wrong=$kind
    kind=$((kind + 1))
done
if [ $wrong = 0 ]; then
    echo "unknown kinds: same"
else
    echo "unknown kinds: kind $wrong is not refused 3"
    bad=1
fi
exit $bad
