#!/bin/sh
# docs/TUTORIAL.md: each command gives the output that is shown.
command -v python3 >/dev/null 2>&1 || {
    echo "tutorial: skipped, it needs python3"
    exit 0
}
exec python3 tests/tutorial.py docs/TUTORIAL.md
