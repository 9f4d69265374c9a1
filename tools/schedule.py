#!/usr/bin/env python3
"""Schedules in a readable text form, and back.

    schedule.py to-bytes < TEXT > SCHEDULE
    schedule.py to-text < SCHEDULE > TEXT

A line is one record:

    setup N K W                          words, descriptors, workers
    open WORKER
    add WORKER ADDRESS EXPECTED DESIRED
    remove WORKER ADDRESS
    submit WORKER
    discard WORKER
    read WORKER ADDRESS
    step WORKER
    back word ADDRESS                    write-backs
    back status DESCRIPTOR
    back body DESCRIPTOR
    crash
    recover
    bytes 0d ff                          raw bytes, two hexadecimal digits each, for what is no whole record

Any line may end in xN: N times. '#' begins a comment. Numbers are decimal, or hexadecimal after 0x. A number need not make sense in
its schedule (`step 200` is a record, which will be refused), but it has to fit: EXPECTED and DESIRED in eight bytes, others in one.
"""
import re
import sys

# name, kind, number of bytes of each number
RECORDS = [
    ('setup', 0x00, (1, 1, 1), 'N K W'),
    ('open', 0x01, (1,), 'WORKER'),
    ('add', 0x02, (1, 1, 8, 8), 'WORKER ADDRESS EXPECTED DESIRED'),
    ('remove', 0x03, (1, 1), 'WORKER ADDRESS'),
    ('submit', 0x04, (1,), 'WORKER'),
    ('discard', 0x05, (1,), 'WORKER'),
    ('read', 0x06, (1, 1), 'WORKER ADDRESS'),
    ('step', 0x07, (1,), 'WORKER'),
    ('back word', 0x08, (1,), 'ADDRESS'),
    ('back status', 0x09, (1,), 'DESCRIPTOR'),
    ('back body', 0x0A, (1,), 'DESCRIPTOR'),
    ('crash', 0x0B, (), ''),
    ('recover', 0x0C, (), ''),
]
BY_NAME = {name: (kind, sizes, form) for name, kind, sizes, form in RECORDS}
BY_KIND = {kind: (name, sizes, 1 + sum(sizes)) for name, kind, sizes, _ in RECORDS}
NAMES = 'setup, open, add, remove, submit, discard, read, step, back word, back status, back body, crash, recover or bytes'
BYTES_A_LINE = 32
CHUNK = 1 << 20


class Wrong(Exception):
    """What is wrong with a line, and what was expected."""


def number(text, size):
    if not re.fullmatch(r'[0-9]+|0[xX][0-9a-fA-F]+', text):
        raise Wrong(f"'{text}' is no number: expected decimal digits, or hexadecimal digits after 0x")
    value = int(text, 16 if text[:2] in ('0x', '0X') else 10) if len(text) < 100 else 256 ** 8
    if value >= 256 ** size:
        raise Wrong(f"{text} is too large: expected a number of {size} byte{'s' if size > 1 else ''}, at most {256 ** size - 1}")
    return value.to_bytes(size, 'little')


def raw(parts):
    if not parts:
        raise Wrong("'bytes' without bytes: expected two hexadecimal digits for each byte, as in 'bytes 0d ff'")
    for part in parts:
        if not re.fullmatch('[0-9a-fA-F]{2}', part):
            raise Wrong(f"'{part}' is no byte: expected two hexadecimal digits")
    return bytes(int(part, 16) for part in parts)


def line_to_bytes(parts):
    """The bytes of a line's parts, its xN apart."""
    if parts[0] == 'bytes':
        return raw(parts[1:])
    name = parts[0]
    if name == 'back' and len(parts) > 1:
        name = f'back {parts[1]}'
    if name not in BY_NAME:
        raise Wrong(f"'{name}' is no record: expected {NAMES}")
    kind, sizes, form = BY_NAME[name]
    numbers = parts[len(name.split()):]
    if len(numbers) != len(sizes):
        raise Wrong(f"{len(numbers)} number{'' if len(numbers) == 1 else 's'} after '{name}': expected '{(name + ' ' + form).strip()}'")
    return bytes([kind]) + b''.join(number(text, size) for text, size in zip(numbers, sizes))


def parse(text):
    """A list of pairs: bytes, and how often."""
    found = []
    for at, line in enumerate(text.split('\n'), 1):
        parts = line.partition('#')[0].split()
        if not parts:
            continue
        times = 1
        try:
            if re.fullmatch('x[0-9]+', parts[-1]):
                text = parts.pop()
                times = int(text[1:19])
                if times == 0 or len(text) > 19:
                    raise Wrong(f"'{text}': expected xN with N from 1 on, of at most 18 digits")
                if not parts:
                    raise Wrong(f"nothing before '{text}': expected a record")
            found.append((line_to_bytes(parts), times))
        except Wrong as wrong:
            raise Wrong(f'line {at}: {wrong}') from None
    return found


def to_bytes(source, sink):
    for record, times in parse(source.read().decode('utf-8', 'replace')):
        at_once = max(1, CHUNK // len(record))
        while times > 0:
            sink.write(record * min(times, at_once))
            times -= at_once


def record_to_text(record, cache={}):
    """The line of a whole record; short ones come again and again, and are remembered."""
    line = cache.get(record)
    if line is None:
        name, sizes, _ = BY_KIND[record[0]]
        parts, at = [name], 1
        for size in sizes:
            parts.append(str(int.from_bytes(record[at:at + size], 'little')))
            at += size
        line = ' '.join(parts)
        if len(record) < 5:
            cache[record] = line
    return line


def lines_of(data):
    """The lines of a schedule, without xN. From the first byte that begins no whole record on, all is raw."""
    at, end = 0, len(data)
    while at < end:
        length = BY_KIND[data[at]][2] if data[at] in BY_KIND else 0
        if length == 0 or at + length > end:
            break
        yield record_to_text(data[at:at + length])
        at += length
    for first in range(at, end, BYTES_A_LINE):
        yield 'bytes ' + data[first:min(end, first + BYTES_A_LINE)].hex(' ')


def to_text(source, sink):
    last, times = None, 0

    def flush():
        if last is not None:
            sink.write((f'{last} x{times}\n' if times > 1 else f'{last}\n').encode())

    for line in lines_of(source.read()):
        if line == last:
            times += 1
        else:
            flush()
            last, times = line, 1
    flush()


def main():
    ways = {'to-bytes': to_bytes, 'to-text': to_text}
    if len(sys.argv) != 2 or sys.argv[1] not in ways:
        print('usage: schedule.py to-bytes < TEXT > SCHEDULE, or schedule.py to-text < SCHEDULE > TEXT', file=sys.stderr)
        return 2
    try:
        ways[sys.argv[1]](sys.stdin.buffer, sys.stdout.buffer)
        sys.stdout.buffer.flush()
    except Wrong as wrong:
        print(f'schedule.py: {wrong}', file=sys.stderr)
        return 2
    except BrokenPipeError:                     # whoever read the output has had enough
        sys.stderr.close()
        return 1
    return 0


if __name__ == '__main__':
    sys.exit(main())
