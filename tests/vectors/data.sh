#!/bin/sh
# data.sh [DIRECTORY]: makes what the program `vectors` is run on, from the files beside this one: data/ (names, and for each name its
# schedule NAME.bytes and its expected output NAME.out) and stdout (every one the same). Without a DIRECTORY: crates/vectors.
# NAME.sched is a schedule as text (tools/schedule.py), NAME.out its output, from document 01 and not from a program.
exec python3 -B - "$(dirname "$0")" "${1:-crates/vectors}" <<'PYTHON'
import io, pathlib, shutil, sys
sys.path.insert(0, 'tools')
import schedule

here, there = pathlib.Path(sys.argv[1]), pathlib.Path(sys.argv[2])
found = {}
for path in here.glob('*.sched'):
    sink = io.BytesIO()
    try:
        schedule.to_bytes(path.open('rb'), sink)
        found[path.stem] = sink.getvalue(), path.with_suffix('.out').read_bytes()
    except (schedule.Wrong, OSError) as wrong:
        sys.exit(f'{path}: {wrong}')

# Run (a) cut to its first bytes: the lines of the whole records; R 2 for a record that is cut, and for no input; where the setup is
# whole the last line, 5 from record 11 on, which writes back Succeeded.
whole_input, whole_output = found['run-a']
lines = whole_output.decode().splitlines()
ends = [0]
while ends[-1] < len(whole_input):
    ends.append(ends[-1] + schedule.BY_KIND[whole_input[ends[-1]]][2])
for cut in range(len(whole_input)):
    whole = sum(end <= cut for end in ends[1:])
    out = lines[:whole]
    if cut == 0 or cut not in ends:
        out.append(f'{whole} R 2')
    if whole > 0:
        out.append('= 5' if whole > 11 else '= 0')
    found[f'run-a-cut-{cut:02}'] = whole_input[:cut], ''.join(line + '\n' for line in out).encode()

shutil.rmtree(there / 'data', ignore_errors=True)
(there / 'data').mkdir(parents=True)
names = sorted(found)
for name in names:
    (there / 'data' / f'{name}.bytes').write_bytes(found[name][0])
    (there / 'data' / f'{name}.out').write_bytes(found[name][1])
(there / 'data' / 'names').write_text(''.join(f'{name}\n' for name in names))
(there / 'stdout').write_text(''.join(f'{name}: same\n' for name in names) + f'{len(names)} of {len(names)} the same\n')
PYTHON
