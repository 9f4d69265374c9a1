#!/bin/sh
# Every must-fail edit was refused, and by a fact, in the words that the check has for one that fails (should it take others, this tells):
# not only because a proof file names what the edit took away, nor by a limit of the prover. That it is the fact which the edit is about
# is more than this can see: docs/PROMISES.md says which, from reading each refusal.
fact='no proof of|does not follow|the two types|the two sides|the two indices|missing equation|give a proof of that|it is not proved that|one side reads|but this has type'
bad=0
edits=0
for edit in crates/*/must-fail/*.edit; do
    name=$(echo "$edit" | sed 's/^crates.//; s/.must-fail.*//')/$(basename "$edit")
    edits=$((edits + 1))
    line=$(grep -F "rt: must-fail $name: " build/ci.log)
    echo "$line" | grep -Eq "refused, as it must be: .*($fact)" || {
        echo "edit $name: ${line:-no line in build/ci.log}"
        bad=1
    }
done
[ $edits -gt 0 ] || bad=1
[ $bad = 0 ] && echo "edits: $edits, each refused by a fact"
exit $bad
