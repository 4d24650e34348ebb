#!/usr/bin/env python3
"""Instructions a call, by callgrind, of each case: ours, the hand-written one, and the ratio beside its goal.

Each case is made N times and 3 N times; what is divided is the difference, so that start and set-up drop out.
count.py [WORD]: only the cases whose names have the word. It needs `rt lib` in crates/bench, and `cargo build --release`
here."""
import os
import subprocess
import sys
import tempfile
from concurrent.futures import ThreadPoolExecutor

FOLDER = os.path.dirname(os.path.abspath(__file__))
BENCH = os.path.join(FOLDER, 'target/release/bench')
SIDES = 'ours', 'hand'
# the parts of a round on a relay, each by the functions in which its calls stand, and its goal
PARTS = {
    'begin': ('*call_begin_*', 2),
    'post': ('*call_post*', None),
    'land': ('*call_land*', None),
    'fetch': ('*call_fetch*', 1.5),
}
WHOLE = 'relay: write, settled read'


def goal_of(name):
    """The ratio that is set for a case, if one is set for its instructions."""
    maker, _, call = name.partition(': ')
    if maker == 'relay' or (maker == 'table of 32' and call != 'list'):
        return 1.25
    if maker == 'log of 32' and call == 'list':
        return 2
    if maker.startswith('log') and call != 'list':
        return 1.35
    return None


def once(name, side, times, functions):
    """The instructions of one run, and its calls, operations begun, and rounds."""
    with tempfile.NamedTemporaryFile() as out:
        command = ['valgrind', '--tool=callgrind', f'--callgrind-out-file={out.name}']
        if functions:
            command.append(f'--toggle-collect={functions}')
        run = subprocess.run([*command, BENCH, name, side, str(times)], capture_output=True, text=True, check=True)
        totals = next(line for line in open(out.name) if line.startswith(('summary:', 'totals:')))
    return [int(totals.split()[1]), *map(int, run.stdout.split())]


def measure(job):
    name, part, side, times = job
    functions = PARTS[part][0] if part else None
    few, many = once(name, side, times, functions), once(name, side, 3 * times, functions)
    instructions, calls, begun, rounds = (b - a for a, b in zip(few, many))
    return instructions / (calls if not part else begun if part == 'begin' else rounds)


def main():
    word = sys.argv[1] if len(sys.argv) > 1 else ''
    listed = subprocess.run([BENCH, 'list'], capture_output=True, text=True, check=True).stdout.splitlines()
    rows = []
    for name, times in (line.split('\t') for line in listed):
        rows.append((name, name, None, int(times), goal_of(name)))
        if name == WHOLE:
            rows += [(f'{name}: {part}', name, part, int(times), goal) for part, (_, goal) in PARTS.items()]
    rows = [row for row in rows if word in row[0]]
    jobs = [(name, part, side, times) for _, name, part, times, _ in rows for side in SIDES]
    with ThreadPoolExecutor(2) as pool:
        counts = dict(zip(jobs, pool.map(measure, jobs)))
    print('| case | ours | hand | ratio | goal |\n|---|---|---|---|---|')
    for title, name, part, times, goal in rows:
        ours, hand = (counts[name, part, side, times] for side in SIDES)
        told = '' if goal is None else f'{goal}' if ours / hand <= goal else f'{goal}, not met'
        print(f'| {title} | {ours:.0f} | {hand:.0f} | {ours / hand:.2f} | {told} |')


if __name__ == '__main__':
    main()
