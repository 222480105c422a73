# Reads what `objdump -dr --no-show-raw-insn` prints: for each function its instructions, as (place, text, what a relocation names). bench/rows/look.py and
# tests/blake3/look.py use it.
import re


def read(lines):
    functions, code = {}, []
    for line in lines:
        m = re.match(r'[0-9a-f]+ <(.+)>:$', line)
        if m:
            code = functions.setdefault(m.group(1), [])
            continue
        m = re.match(r'\s*[0-9a-f]+:\s+R_X86_64\S+\s+(\S+)', line)
        if m:
            place, text, _ = code.pop()
            code.append((place, text, re.sub(r'^\.text\.|[-+]0x[0-9a-f]+$', '', m.group(1))))
            continue
        m = re.match(r'\s*([0-9a-f]+):\s+(\S.*)$', line)
        if m:
            code.append((int(m.group(1), 16), m.group(2).strip(), None))
    return functions
