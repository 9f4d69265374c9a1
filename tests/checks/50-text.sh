#!/bin/sh
# The text form of schedules (tools/schedule.py): back and forth it gives the same bytes, and a line that is wrong is named.
command -v python3 >/dev/null 2>&1 || {
    echo "text: skipped, it needs python3"
    exit 0
}
rm -rf build/text
mkdir -p build/text
if command -v gcc >/dev/null 2>&1; then
    sh tests/model/build.sh && build/model/gen 1 400 build/text || exit 1
    [ "$(find build/text -type f | wc -l)" = 400 ] || {
        echo "text: the generator did not write 400 schedules"
        exit 1
    }
else
    echo "text: without the generator's schedules, which need gcc"
fi
exec python3 tests/text.py build/text
