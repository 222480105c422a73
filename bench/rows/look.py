#!/usr/bin/env python3
# Reads `objdump -dr` of libexports.a and prints, for each function of the time caches, what became of the moves of rows and of the loads of words. Fails where
# a move is not vector code or a word is put together from bytes.
#
# The functions of crates/storage/src/rows are compiled into their callers, so their names are gone; a move is found as a loop. A loop is a jump back, and it
# is innermost if no other lies in it. An innermost loop that stores whole vector registers is a move of rows: nothing else there stores so many
# bytes. move_up goes from the end, its step is negative; move_down goes from the start.
import os
import re
import sys

sys.dont_write_bytecode = True
sys.path.insert(0, os.path.join(os.path.dirname(os.path.abspath(__file__)), '..', '..', 'tools'))
from disassembly import read

# the moves of rows in each function's source, and which way they go
MOVES = {
    'time_cache_insert': ('from the end', ['move_up, in insert_row of the expiry rows', 'move_up, in insert_row of the entries']),
    'time_cache_expire_until': ('from the start', ['move_down, in remove_rows of the expiry rows', 'move_down, in drop_places of the entries']),
}
VECTOR = re.compile(r'mov(?:ups|aps|dqu|dqa)\s+%xmm\d+,[^%]*\((.*)\)')
STORE = re.compile(r'mov[bwlq]?\s+[%$][^(]*,[^(]*\(%(?!rsp)')
STEP = re.compile(r'(add|sub)\s+\$0x([0-9a-f]+),(%\w+)$')


def innermost(code):
    jumps = ((at, re.match(r'j\w+\s+([0-9a-f]+) <', text)) for at, text, _ in code)
    loops = {(int(m.group(1), 16), at) for at, m in jumps if m and int(m.group(1), 16) <= at}
    return [l for l in sorted(loops) if not any(o != l and l[0] <= o[0] and o[1] <= l[1] for o in loops)]


# by the steps of the registers that the stores' addresses are made of
def direction(body):
    used = {r for m in map(VECTOR.match, body) if m for r in re.findall(r'%\w+', m.group(1))}
    steps = [m for m in map(STEP.match, body) if m and m.group(3) in used]
    down = [m for m in steps if (int(m.group(2), 16) >= 2 ** 63) != (m.group(1) == 'sub')]
    return 'from the end' if down else 'from the start' if steps else 'which way is not seen'


ok = True
for name, code in read(sys.stdin).items():
    # The archive has the identifier too.
    if 'time_cache' not in name:
        continue
    moves, others, copied = [], 0, set()
    for first, last in innermost(code):
        body = [text for at, text, _ in code if first <= at <= last]
        vector = sum(1 for text in body if VECTOR.match(text))
        if vector:
            moves.append((first, last, 16 * vector, direction(body)))
        if vector or any(STORE.match(text) for text in body):
            others += not vector
            copied.update(at for at, _, _ in code if first <= at <= last)
    calls = sum(1 for _, _, named in code if named == 'memmove')
    swaps = sum(1 for _, text, _ in code if text.startswith('bswap'))
    single = [text for at, text, _ in code if at not in copied and re.match(r'movzb\w\s+[^%]*\((?!%rsp)', text)]
    print('%s: %d byte swaps, %d loads of one byte outside loops that store, %d calls of memmove' % (name, swaps, len(single), calls))
    for first, last, size, way in moves:
        print('  loop %x-%x: vector code, %d bytes a turn, %s' % (first, last, size, way))
    if others:
        print('  %d more loops that store: the ends of these moves, and places renamed' % others)
    way, want = MOVES.get(name, ('', []))
    found = sum(1 for m in moves if m[3] == way) + calls
    if want:
        print('  in the source: %s; found %d' % (', and '.join(want), found))
    ok = ok and found >= len(want) and not single
print('ok' if ok else 'NOT as it should be')
sys.exit(not ok)
