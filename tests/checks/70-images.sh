#!/bin/sh
# Recovery of images as C calls it, beside the independent model, on random images; and wrong models, which must be told.
command -v gcc >/dev/null 2>&1 || {
    echo "images: skipped, it needs gcc"
    exit 0
}
. tests/programs.sh
build_archive || {
    echo "images: the archive could not be proved and built; see build/staticlib.log"
    exit 1
}
sh tests/model/build.sh || exit 1
build/model/compare_images 1 "${IMAGES:-200000}" || exit 1
sh tests/model/wrong_images.sh
