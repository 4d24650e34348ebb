#!/usr/bin/env python3
"""How many bytes of stack the calls of a relay take at most, ours and the hand-written one's, read off the machine code: a
function's pushes, what it takes off the stack pointer and its return address, and the most that a function called by it takes.
The C library's functions (memcpy and the like), and what is called through a pointer, as Rust's panics are, are not counted."""
import functools
import os
import re
import subprocess

FOLDER = os.path.dirname(os.path.abspath(__file__))
BENCH = os.path.join(FOLDER, 'target/release/bench')
CALLS = 'call_begin_write', 'call_begin_read', 'call_post', 'call_land', 'call_fetch'


def disassemble():
    """Each function's own bytes of stack, and the functions that it calls."""
    own, callees = {}, {}
    text = subprocess.run(['objdump', '-d', '--no-show-raw-insn', BENCH], capture_output=True, text=True, check=True).stdout
    name = None
    for line in text.splitlines():
        if head := re.match(r'[0-9a-f]+ <(.*)>:', line):
            name = head[1]
            own[name], callees[name] = 8, set()
        elif '\tpush' in line:
            own[name] += 8
        elif taken := re.search(r'\tsub +\$0x([0-9a-f]+),%rsp', line):
            own[name] += int(taken[1], 16)
        elif called := re.search(r'\t(?:call|jmp)\w* +[0-9a-f]+ <(.*?)(\+0x[0-9a-f]+)?>$', line):
            callees[name].add(called[1])
    return own, callees


def main():
    own, callees = disassemble()

    @functools.cache
    def most(name):
        return own[name] + max((most(callee) for callee in callees[name] if callee != name and callee in own), default=0)

    print('| call | ours | hand |\n|---|---|---|')
    for call in CALLS:
        # rustc's own names are mangled
        found = [name for name in own if call in name]
        ours, hand = (max(most(name) for name in found if name.startswith('_ZN') == mangled) for mangled in (False, True))
        print(f'| {call} | {ours} | {hand} |')


if __name__ == '__main__':
    main()
