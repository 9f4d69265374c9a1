#!/bin/sh
# install.sh PREFIX: the archive, the header, a pkg-config file and the Fortran module (make install PREFIX=.. DESTDIR=..).
prefix=${1:?where to: make install PREFIX=/usr/local}
case $prefix in
/*) ;;
*) prefix=$PWD/$prefix ;;
esac
goal=install
. tests/need-kit.sh
. tests/programs.sh
archive=target/staticlib/libimage.a
mkdir -p build
# also where there is an archive: it may be of an earlier state of the sources
build_archive || {
    echo "make install: the archive could not be proved and built; see build/staticlib.log" >&2
    exit 1
}
to=$DESTDIR$prefix
mkdir -p "$to/lib/pkgconfig" "$to/include" "$to/share/pmwcas_recovery" || exit 1
cp $archive "$to/lib/libpmwcas_recovery.a" &&
    cp include/pmwcas_recovery.h "$to/include/" &&
    cp tests/fortran/pmwcas_recovery.f90 "$to/share/pmwcas_recovery/" || exit 1
cat >"$to/lib/pkgconfig/pmwcas_recovery.pc" <<TEXT
prefix=$prefix
libdir=\${prefix}/lib
includedir=\${prefix}/include

Name: pmwcas_recovery
Description: Recovery of a PMwCAS memory image after a power cut
Version: 1.0.0
Libs: -L\${libdir} -lpmwcas_recovery
Cflags: -I\${includedir}
TEXT
echo "installed in $to: lib/libpmwcas_recovery.a, include/pmwcas_recovery.h, lib/pkgconfig/pmwcas_recovery.pc, share/pmwcas_recovery/pmwcas_recovery.f90"
