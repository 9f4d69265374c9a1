# Sourced: stops with one clear line where Rattle's kit is missing.
command -v rt >/dev/null 2>&1 || {
    echo "make $goal: Rattle's kit is not here: put its command 'rt' on the PATH" >&2
    exit 1
}
