#!/bin/sh
# The comparison of images, tested: the model with one thing wrong, in many ways, must be told within 10,000 seeds; and where document 01's
# own rules show it (+), also with the same wrong model in the place of the library.
here=tests/model
work=build/model/wrong
library=target/staticlib/libimage.a
rm -rf $work
mkdir -p $work
cc="${CC:-gcc} -std=c99 -D_POSIX_C_SOURCE=200809L -O1 -Iinclude -I$here"
for part in compare_images images damage choose contend machine steps alike recover; do
    $cc -c -o $work/$part.o $here/$part.c || exit 1
done
rest=$(for part in compare_images images damage choose contend machine steps; do echo $work/$part.o; done)

bodies='    for (u64 d = 0; d < k; d++)\n        if (number_at(descriptors + DESCRIPTOR * d) != FREE \&\& bad_body(descriptors + DESCRIPTOR * d, n))\n            return 22;'
words='    for (u64 a = 0; a < n; a++)\n        if (bad_word(number_at(image + NUMBER * a)))\n            return 23;'
pointers='    for (u64 a = 0; a < n; a++)\n        if (bad_pointer(descriptors, k, number_at(image + NUMBER * a), a))\n            return 24;'
first='    struct recovered r = .*'
cat >$work/edits <<END
+ Succeeded tested for equality with 2 | s/by_status(status, &e)/status == SUCCEEDED ? e.desired : e.expected/
+ Undecided taken for Succeeded | s/by_status(status, &e)/(status \& ~DIRTY) != FAILED ? e.desired : e.expected/
+ Free stored before the entries | s/steps > 2 \* count/steps > 0/
+ Free stored a step late | s/steps > 2 \* count/steps > 2 * count + 1/
+ a word settled a step late | s/steps > 2 \* i;/steps > 2 * i + 1;/
+ the last entry not settled | s/i < count && steps/i + 1 < count \&\& steps/
+ a step too few | s/2 \* count + 2/2 * count + 1/
+ a step too many | s/2 \* count + 2/2 * count + 3/
+ write-backs not counted | s/2 \* count + 2/count + 1/
+ the exact allowance is not enough | s/taken < due)/taken < due || r.steps == allowance)/
+ only clean pointers settled | s/points_to(number_at(word), d)/number_at(word) == (POINTER | d)/
+ only dirty pointers settled | s/points_to(number_at(word), d)/number_at(word) == (DIRTY | POINTER | d)/
+ a word settled dirty | s/set_number(word, by_status/set_number(word, DIRTY | by_status/
+ dirty plain words cleaned | s/^        set_number(word, by_status.*/&\n    else\n        set_number(word, number_at(word) \& ~DIRTY);/
+ the body emptied with Free | s/^        set_number(descriptor, FREE);/    set_number(descriptor, FREE), set_number(descriptor + COUNT_AT, 0);/
+ a byte behind the image written | s/^$first/&\n    if (length % 2 == 0)\n        image[length] ^= 1;/
+ a byte behind the image read | s/^$first/    (void)*(volatile unsigned char *)(image + length);\n&/
+ a byte before the image read | s/^$first/    (void)*(volatile unsigned char *)(image - 1);\n&/
+ statuses read before the length is looked at | s/^    if (length != NUMBER .*/    for (u64 d = 0; d < k; d++)\n        (void)*(volatile const unsigned char *)(image + NUMBER * n + DESCRIPTOR * d);\n&/
+ a refused image changed (24) | s/^$first/&\n    if (r.answer == 24)\n        set_number(image, number_at(image) \& ~DIRTY);/
+ a refused image changed (22) | s/^$first/&\n    if (r.answer == 22 \&\& number_at(image + NUMBER * n) == (DIRTY | SUCCEEDED))\n        set_number(image + NUMBER * n, SUCCEEDED);/
+ a refusal with steps | s/^    if (r.answer)\$/&\n        r.steps = r.answer == 23;\n&/
- 20 before 1 | s/^    if (n < 1 .*/    if (length != NUMBER * n + DESCRIPTOR * k)\n        return 20;\n&/
- 22 before 21 | s/^    const unsigned char \*descriptors = .*/&\n$bodies/
- 23 before 22 | s/^            return 21;/&\n$words/
- 24 before 23 | s/^            return 22;/&\n$pointers/
+ n of 65 accepted | s/n > MAX_WORDS/n > MAX_WORDS + 1/
+ k of 17 accepted | s/k > MAX_DESCRIPTORS/k > MAX_DESCRIPTORS + 1/
+ n of 0 accepted | s/n < 1 || //
+ k of 0 accepted | s/k < 1 || //
+ a greater length accepted | s/length != /length < /
- dirty Free accepted | s/return status > FAILED/return status != DIRTY \&\& status > FAILED/
- dirty Undecided accepted | s/return status > FAILED/return status != (DIRTY | 1) \&\& status > FAILED/
- status 4 accepted | s/status > FAILED/status > 4/
- status looked at in 32 bits | s/return status > FAILED/status = (status \& DIRTY) | (unsigned)status;\n    &/
+ dirty Failed refused | s/ && status != (DIRTY | FAILED)//
- count 0 accepted | s/count < 1 || //
+ count of 3 at most | s/count > MAX_ENTRIES/count > 3/
- equal addresses accepted | s/least = address + 1/least = address/
- descending addresses accepted | s/address < least || //
- address n accepted | s/address >= n/address > n/
- expected 2^61 accepted | s/EXPECTED_AT) >= /EXPECTED_AT) > /
+ desired 2^61 accepted | s/DESIRED_AT) >= /DESIRED_AT) > /
+ values of 2^61-1 refused | s/DESIRED_AT) >= PLAIN_LIMIT/DESIRED_AT) >= PLAIN_LIMIT - 1/
+ entries past the count looked at (22) | /bad_body(const/,/^}/s/i < count/i < MAX_ENTRIES/
+ a Free body looked at | s/number_at(descriptors + DESCRIPTOR \* d) != FREE && //
- bit 61 of pointers not looked at | s/return (word & PLAIN_LIMIT) != 0/return (word \& (POINTER | PLAIN_LIMIT)) == PLAIN_LIMIT/
+ dirty pointers refused | s/return (word & PLAIN_LIMIT) != 0/return (word \& PLAIN_LIMIT) != 0 || word >= (DIRTY | POINTER)/
+ entries past the count looked at (24) | /has_address(const/,/^}/s/i < count/i < MAX_ENTRIES/
+ pointers to Free accepted | s/return number_at(descriptor) == FREE || /return /; s/i < count; i++/i < count \&\& i < MAX_ENTRIES; i++/
+ any address accepted | s/ || !has_address(descriptor, address)//
+ pointers looked at in 32 bits | s/if (target(word) >= k)/word = (unsigned)word;\n    &/
+ the last word not looked at (24) | s/if (bad_pointer(descriptors/if (a + 1 < n \&\& bad_pointer(descriptors/
END

# told PROGRAM: it tells within 10,000 seeds; the first seed into $seed
told() {
    "$1" 1 10000 >$work/out 2>&1
    [ $? != 0 ] || return 1
    seed=$(sed -n 's/^images: seed \([0-9]*\): .*/\1/p' $work/out | head -n 1)
    [ -n "$seed" ]
}

$cc -o $work/right $rest $work/recover.o $work/alike.o && "$work/right" 1 10000 >$work/out || {
    echo "images: the model is told from itself"
    exit 1
}
bad=0 count=0 alike=0 latest=0
while read -r sign line; do
    name=${line%% | *}
    sed "${line#* | }" $here/recover.c >$work/recover.c
    cmp -s $here/recover.c $work/recover.c && {
        echo "images: the edit '$name' changes nothing"
        bad=1
        continue
    }
    $cc -c -o $work/recover.o $work/recover.c && $cc -o $work/wrong $rest $work/recover.o $library || exit 1
    count=$((count + 1))
    if told $work/wrong; then
        [ "$seed" -le $latest ] || latest=$seed
        [ -z "$VERBOSE" ] || echo "$name: seed $seed, $(sed -n '1s/.*: //p' $work/out)"
    else
        echo "images: not told: $name"
        bad=1
    fi
    [ "$sign" = - ] || {
        alike=$((alike + 1))
        $cc -o $work/wrong_alike $rest $work/recover.o $work/alike.o || exit 1
        told $work/wrong_alike || {
            echo "images: not told by document 01's rules: $name"
            bad=1
        }
    }
done <$work/edits
[ $bad = 0 ] && echo "images: $count wrong models, each told, the last at seed $latest; $alike of them by document 01's rules alone"
exit $bad
