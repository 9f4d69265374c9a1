# Sourced: build_programs NAME.. proves and builds programs into target/bin, take_programs NAME.. takes those that rt ci has
# built since build/ci.begun, and builds the others; build_archive proves and builds the recovery into target/staticlib/libimage.a.
# Their logs are build/NAME.log and build/staticlib.log. What was proved before is not proved again.
build_programs() {
    mkdir -p build target/bin
    for program in "$@"; do
        rm -f "crates/$program/out/$program"
        in=/dev/null
        [ ! -f "crates/$program/stdin" ] || in=$PWD/crates/$program/stdin
        # how the run ends says nothing of the build (vectors is not in its data/ here): what counts is the program that it leaves
        (cd "crates/$program" && rt run) <"$in" >"build/$program.log" 2>&1
        cp "crates/$program/out/$program" target/bin/ 2>>"build/$program.log" || {
            tail -n 5 "build/$program.log"
            return 1
        }
    done
}
take_programs() {
    mkdir -p target/bin
    for taken in "$@"; do
        if [ "crates/$taken/out/$taken" -nt build/ci.begun ]; then
            cp "crates/$taken/out/$taken" target/bin/ || return 1
        else
            build_programs "$taken" || return 1
        fi
    done
}
build_archive() {
    mkdir -p build target/staticlib
    (cd crates/image_c && rt lib) >build/staticlib.log 2>&1 && cp crates/image_c/out/libimage_c.a target/staticlib/libimage.a || {
        tail -n 5 build/staticlib.log
        return 1
    }
}
