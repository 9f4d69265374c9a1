"""text.py DIRECTORY: tools/schedule.py on the schedules in the directory, on random bytes, and on lines that are wrong."""
import io
import os
import random
import subprocess
import sys

sys.path.insert(0, 'tools')
sys.dont_write_bytecode = True
import schedule

bad = []


def check(what, good):
    if not good:
        bad.append(what)
        print(f'text: {what}')


def convert(way, data):
    sink = io.BytesIO()
    way(io.BytesIO(data), sink)
    return sink.getvalue()


LENGTH = [4, 2, 19, 3, 2, 2, 3, 2, 2, 2, 2, 1, 1]      # of a record of each kind


def round_trip(what, data):
    """The same bytes again, and a text in which no two lines could be one and raw bytes stand only where no whole record does."""
    text = convert(schedule.to_text, data)
    check(f'{what}: other bytes come back', convert(schedule.to_bytes, text) == data)
    lines = [line.rsplit(' x', 1)[0] for line in text.decode().splitlines()]
    check(f'{what}: two equal lines in a row', all(a != b for a, b in zip(lines, lines[1:])))
    raw = [line.startswith('bytes') for line in lines]
    check(f'{what}: a record after raw bytes', raw == sorted(raw))
    at = 0
    while at < len(data) and data[at] < 13 and at + LENGTH[data[at]] <= len(data):
        at += LENGTH[data[at]]
    first = lines[raw.index(True)].split()[1:] if True in raw else []
    check(f'{what}: raw bytes where a record stands', first == [f'{byte:02x}' for byte in data[at:at + len(first)]] and any(raw) == (at < len(data)))


def run(way, data):
    done = subprocess.run([sys.executable, 'tools/schedule.py', way], input=data, capture_output=True, check=False)
    return done.returncode, done.stdout, done.stderr.decode()


# The generator's schedules.
names = sorted(os.listdir(sys.argv[1]), key=int)
total = 0
for name in names:
    with open(os.path.join(sys.argv[1], name), 'rb') as file:
        content = file.read()
    total += len(content)
    round_trip(f'seed {name}', content)

# Random bytes: any, kinds alone, few values (so that runs come about), whole records in a row; every record cut at every byte.
rng = random.Random(1)
count = 0
for top in (256, 14, 13, 3, 1):
    for length in list(range(40)) + [rng.randrange(40, 3000) for _ in range(160)]:
        round_trip(f'random bytes below {top}, length {length}', bytes(rng.randrange(top) for _ in range(length)))
        count += 1
for kind, (_, _, length) in schedule.BY_KIND.items():
    whole = bytes([kind]) + bytes(rng.randrange(256) for _ in range(length - 1))
    for end in range(len(whole) + 1):
        for before in (b'', whole, whole * 3):
            round_trip(f'kind {kind} cut to {end}', before + whole[:end])
            count += 1
round_trip('a million of one record', b'\x07\x00' * 1000000)
round_trip('a million of one raw byte', b'\xff' * 1000000)

# A text by hand, each kind of line, against bytes by hand; and the text that comes back.
TEXT = b'''# every kind of line
setup 1 2 3
open 4   # a comment
add 5 6 0x0102030405060708 18446744073709551615

\tremove 7 8
submit 9
discard 10
read 11 12
step 255 x3
back word 13
back status 14
back body 0x0F
crash
recover x2
bytes 0d FF
'''
BYTES = bytes.fromhex('00010203' '0104' '020506' '0807060504030201' 'ffffffffffffffff' '030708' '0409' '050a' '060b0c' '07ff07ff07ff'
                      '080d' '090e' '0a0f' '0b' '0c0c' '0dff')
BACK = b'''setup 1 2 3
open 4
add 5 6 72623859790382856 18446744073709551615
remove 7 8
submit 9
discard 10
read 11 12
step 255 x3
back word 13
back status 14
back body 15
crash
recover x2
bytes 0d ff
'''
check('each kind of line: other bytes', run('to-bytes', TEXT) == (0, BYTES, ''))
check('each kind of line: another text', run('to-text', BYTES) == (0, BACK, ''))
check('nothing gives something', run('to-bytes', b'') == (0, b'', '') and run('to-text', b'') == (0, b'', ''))

# Wrong lines: exit status 2, nothing written, the line named, what is expected said.
WRONG = ['step', 'step 0 0', 'stepp 0', 'back', 'back words 0', 'step 256', 'step -1', 'step one', 'step 0x', 'add 0 0 0', 'x3', 'step 0 x0',
         'add 0 0 18446744073709551616 0', 'bytes', 'bytes f', 'bytes 0d0', 'crash 0', 'step 0 x', 'setup 1 1', 'step ' + '9' * 5000, 'crash x' + '9' * 5000]
for line in WRONG:
    try:
        schedule.parse('crash\n# two\n' + line + '\ncrash')
        check(f"'{line}' was accepted", False)
    except schedule.Wrong as wrong:
        check(f"'{line}': {wrong}", str(wrong).startswith('line 3: ') and 'expected' in str(wrong))
status, out, said = run('to-bytes', b'crash\nstepp 0\n')
check(f'a wrong line: status {status}, said {said!r}', (status, out) == (2, b'') and 'line 2' in said and 'expected' in said)
check('no way given', subprocess.run([sys.executable, 'tools/schedule.py'], capture_output=True, check=False).returncode == 2)

if not bad:
    print(f'text: {len(names)} schedules ({total} bytes) and {count} strings of bytes the same again, {len(WRONG)} wrong lines named')
sys.exit(1 if bad else 0)
