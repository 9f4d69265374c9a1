#!/bin/sh
# The recovery that the C runtime links: the archive from what is proved, the C tests on it (also with gcc's sanitizers on the C side), the fault that it mends, Fortran, and an
# installed copy.
command -v gcc >/dev/null 2>&1 || {
    echo "c: skipped, it needs gcc"
    exit 0
}
work=build/c
rm -rf $work
mkdir -p $work
archive=target/staticlib/libimage.a
. tests/programs.sh
build_archive || exit 1
bad=0

# try NAME COMPILER AND WORDS..: compiled without a warning, and run
try() {
    name=$1
    shift
    if "$@" -o $work/program 2>$work/said && [ ! -s $work/said ] && $work/program >$work/out; then
        echo "c, $name: $(tail -n 1 $work/out)"
    else
        head -n 10 $work/said
        [ ! -f $work/out ] || cat $work/out
        echo "c, $name: not as it has to be"
        bad=1
    fi
}

strict='-std=c99 -Wall -Wextra -Wpedantic -Iinclude'
try "known answers" gcc $strict -O2 tests/c/known.c $archive
try "known answers, sanitized" gcc $strict -g -fsanitize=address,undefined -fno-sanitize-recover=all tests/c/known.c $archive
try "a status compared for equality" gcc $strict -O2 tests/c/equality.c $archive
if command -v g++ >/dev/null 2>&1; then
    try "known answers, C++" g++ -Wall -Wextra -Iinclude -x c++ tests/c/known.c -x none $archive
fi
if command -v gfortran >/dev/null 2>&1; then
    try "a SAVE block, Fortran" gfortran -Wall -Wextra -J $work tests/fortran/pmwcas_recovery.f90 tests/fortran/save_block.f90 $archive
else
    echo "c: Fortran is skipped, it needs gfortran"
fi
DESTDIR='' sh tools/install.sh $work/prefix >$work/installed || bad=1
try "installed" gcc -std=c99 -Wall -Wextra -O2 tests/c/known.c -I$work/prefix/include -L$work/prefix/lib -lpmwcas_recovery
# README's own commands
if command -v pkg-config >/dev/null 2>&1; then
    words=$(PKG_CONFIG_PATH=$work/prefix/lib/pkgconfig pkg-config --cflags --libs pmwcas_recovery) || bad=1
    try "pkg-config" gcc -Wall -Wextra tests/c/known.c $words
    if command -v gfortran >/dev/null 2>&1; then
        try "pkg-config, Fortran" gfortran -J $work $work/prefix/share/pmwcas_recovery/pmwcas_recovery.f90 tests/fortran/save_block.f90 $words
    fi
else
    echo "c: pkg-config is not tried, it is not here"
fi
exit $bad
