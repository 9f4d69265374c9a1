#!/usr/bin/env python3
"""Every command that a page shows, run again: its output has to be the one shown.

usage: tests/tutorial.py PAGE           says where the page and the output differ
       tests/tutorial.py --fill PAGE    writes the outputs into the page

A command is an indented line that begins with '$ '; the indented lines after it, up to an empty line, are its output.
"""
import subprocess
import sys


def output_of(command):
    run = subprocess.run(["sh", "-c", command], capture_output=True, text=True, check=False)
    return (run.stdout + run.stderr).splitlines()


def blocks(lines):
    """(line of the command, lines of the output) for each command."""
    i = 0
    while i < len(lines):
        if lines[i].startswith("    $ "):
            start = i
            i += 1
            while i < len(lines) and lines[i].startswith("    ") and not lines[i].startswith("    $ "):
                i += 1
            yield start, i
        else:
            i += 1


def main():
    fill = sys.argv[1:2] == ["--fill"]
    page = sys.argv[-1]
    with open(page, encoding="utf-8") as file:
        lines = file.read().splitlines()
    new, at, bad, commands = [], 0, 0, 0
    for start, end in blocks(lines):
        commands += 1
        command = lines[start][6:]
        shown = [line[4:] for line in lines[start + 1:end]]
        real = output_of(command)
        if shown != real:
            bad += 1
            if not fill:
                print(f"{page}:{start + 1}: the output of this command is another one: {command}")
        new += lines[at:start + 1] + ["    " + line for line in real]
        at = end
    new += lines[at:]
    if fill:
        with open(page, "w", encoding="utf-8") as file:
            file.write("\n".join(line.rstrip() for line in new) + "\n")
        return 0
    if commands == 0:
        print(f"{page}: shows no command")
        return 1
    if bad == 0:
        print(f"{page}: {commands} commands, each gives the output that is shown")
    return 1 if bad else 0


if __name__ == "__main__":
    sys.exit(main())
