#!/usr/bin/env python3
"""Draws a trace as a picture: cached and persisted memory over time.

usage: target/bin/trace <SCHEDULE | python3 tools/picture.py >PICTURE.svg

One column a record, one row for each copy of each word and of each status, and a row for each worker with the number of the step whose turn it is.
A bar lasts as long as the content does. A crash is a red line.
"""
import re
import sys

LEFT, TOP, COLUMN, ROW, GAP = 150, 46, 50, 22, 10

COLOURS = {
    "plain": "#dcebf7",
    "pointer": "#f9d9a8",
    "Free": "#eeeeee",
    "Undecided": "#fbf2b8",
    "Succeeded": "#c9e8c4",
    "Failed": "#f3c6c2",
    "worker": "#ffffff",
    "other": "#ffffff",
}


def sort_of(text):
    """What kind of content a trace's words are, for the colour."""
    if text.startswith("pointer"):
        return "pointer"
    first = text.split(" ")[0]
    if first in COLOURS:
        return first
    return "plain" if first.isdigit() else "other"


def label(text, width):
    """→ for a pointer, * for dirty; a status cut short where the bar is."""
    text = text.replace("pointer to ", "→").replace(" dirty", "*")
    if 7 * len(text) > width:
        for name in ("Undecided", "Succeeded", "Failed"):
            text = text.replace(name, name[:4] + ".")
    return text


class Trace:
    """The records, and for each row its content after each record."""

    def __init__(self, lines):
        self.records = []
        self.rows = {}
        self.crashes = []
        for line in lines:
            self.read(line.rstrip("\n"))

    def read(self, line):
        record = re.fullmatch(r"(\d+) (.+)", line)
        if record:
            self.records.append((record[1], record[2]))
            return
        if line.startswith("="):
            self.records.append(("", line))
            return
        if not line.startswith("  ") or not self.records:
            raise ValueError(f"no line of trace: {line!r}")
        self.change(line.strip().split("  "))

    def change(self, parts):
        now = len(self.records) - 1
        name = parts[0]
        if name.startswith(("word", "status")):
            for part in parts[1:]:
                copy, content = part.split(" ", 1)
                self.rows.setdefault((name, copy), {})[now] = content
        elif name.startswith("worker"):
            step = parts[-1]
            self.rows.setdefault((name, "step"), {})[now] = step.split(" ")[0]
        elif name == "recovery" and parts[1] == "descriptor 0, 0 done" and self.records[now][1] == "OK":
            self.crashes.append(now)

    def columns(self):
        return len([r for r in self.records if r[0]])

    def bars(self, key):
        """(from, to, content) of each stretch of equal content."""
        changes = sorted(t for t in self.rows[key] if t < self.columns())
        bars = []
        for i, t in enumerate(changes):
            end = changes[i + 1] if i + 1 < len(changes) else self.columns()
            content = self.rows[key][t]
            if bars and bars[-1][2] == content:
                bars[-1] = (bars[-1][0], end, content)
            else:
                bars.append((t, end, content))
        return bars


def text_at(x, y, words, anchor="middle", size=11, extra=""):
    words = words.replace("&", "&amp;").replace("<", "&lt;").replace(">", "&gt;")
    return f'<text x="{x}" y="{y}" text-anchor="{anchor}" font-size="{size}"{extra}>{words}</text>'


def order(key):
    kinds = {"word": 0, "status": 1, "worker": 2}
    kind, number = key[0].split(" ")
    return (kinds[kind], int(number), key[1])


def draw(trace):
    keys = sorted(trace.rows, key=order)
    places, y, before = {}, TOP, None
    for key in keys:
        y += GAP if before not in (None, key[0]) else 0
        places[key], before = y, key[0]
        y += ROW
    width, height = LEFT + COLUMN * trace.columns() + 10, y + 34
    out = [f'<svg xmlns="http://www.w3.org/2000/svg" width="{width}" height="{height}" viewBox="0 0 {width} {height}" font-family="sans-serif">']
    out.append('<rect width="100%" height="100%" fill="#ffffff"/>')
    out.append(text_at(LEFT - 8, 16, "record", "end"))
    out.append(text_at(LEFT - 8, 32, "answer", "end"))
    for i, (number, answer) in enumerate(r for r in trace.records if r[0]):
        middle = LEFT + COLUMN * i + COLUMN // 2
        out.append(text_at(middle, 16, number))
        out.append(text_at(middle, 32, answer, extra=' font-weight="bold"'))
    for key in keys:
        out.append(text_at(LEFT - 8, places[key] + 15, " ".join(key), "end"))
        for start, end, content in trace.bars(key):
            out.extend(bar(key, places[key], start, end, content))
    for crash in trace.crashes:
        x = LEFT + COLUMN * crash
        out.append(f'<line x1="{x}" y1="4" x2="{x}" y2="{y + 6}" stroke="#c0392b" stroke-width="2"/>')
        out.append(text_at(x + 4, y + 14, "crash", "start", extra=' fill="#c0392b"'))
    out.append(text_at(8, height - 6, "→0: a pointer to descriptor 0.  *: dirty.  A worker's row has the step of the protocol whose turn it is.", "start", 10, ' fill="#555555"'))
    out.append("</svg>")
    return "\n".join(out) + "\n"


def bar(key, y, start, end, content):
    kind = "worker" if key[1] == "step" else sort_of(content)
    x, width = LEFT + COLUMN * start, COLUMN * (end - start)
    edge = ' stroke-dasharray="3,2"' if "dirty" in content else ""
    yield f'<rect x="{x + 1}" y="{y + 1}" width="{width - 2}" height="{ROW - 2}" rx="3" fill="{COLOURS[kind]}" stroke="#777777"{edge}/>'
    yield text_at(x + width // 2, y + 15, label(content, width), size=10)


def main():
    try:
        trace = Trace(sys.stdin)
    except (ValueError, IndexError) as fault:
        print(f"picture.py: {fault}; its input is what target/bin/trace prints", file=sys.stderr)
        return 1
    if not trace.rows:
        print("picture.py: nothing to draw: a trace without a good setup shows no memory", file=sys.stderr)
        return 1
    sys.stdout.write(draw(trace))
    return 0


if __name__ == "__main__":
    sys.exit(main())
