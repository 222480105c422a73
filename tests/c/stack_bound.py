#!/usr/bin/env python3
# A bound of the stack that each exported function of a static library takes, read from its compiled code (x86-64, ELF), which objdump of binutils shows. It holds of every path
# that this code has, taken by some call or not, and says nothing of an archive that another compiler, or other flags, made of the same sources.
#
# Usage: tests/c/stack_bound.py [--chains] ARCHIVE [LIMIT [MEASURED]]
#   --chains  tells of each exported function the deepest chain of calls too, each with the bytes that it has taken where it calls the next
#   LIMIT     fails where a function takes more bytes
#   MEASURED  a file of lines NAME BYTES (tests/c/stack.c writes it), which are told beside the bound; fails where one is over its bound by more than its caller can take
#
# Every member of the archive is read. The bytes are counted from where the caller's stack pointer is before the call: the return address, all that is pushed and taken off the
# stack pointer up to the deepest place, the 128 bytes below it where a function uses them, and what the functions take that it calls. Not counted: arguments that the caller puts
# on the stack, which are in its own frame; what memcpy, memmove and memset take below their return address; handlers of signals.
#
# Taken for granted: a called function gives back rbx, rbp and r12 to r15, and one outside the archive the stack pointer too, as the calling convention has it; a jump by a table
# takes one of the table's entries.
#
# It refuses to tell, and fails, where
#   - a call is by a pointer, or a jump that is not by a table of places in the function itself;
#   - functions call each other in a cycle, but for one that calls itself and of which LEVELS says how often;
#   - one place is reached with more and with less taken: room taken in a loop;
#   - the stack pointer is changed by what is not known before the program runs, or an instruction is not among those that are known here;
#   - a place far below the stack pointer is used, or a function is left by ret, or by a jump, with room still taken;
#   - a call or a jump leads to where no function begins, or out of the archive to any but memcpy, memmove and memset.
import os, re, subprocess, sys
from collections import namedtuple
from itertools import groupby

EXPORTED = "plumtree_"
OUTSIDE = ("memcpy", "memmove", "memset")
RETURN_ADDRESS = 8
RED_ZONE = 128  # what a function may use below the stack pointer without taking it, by the calling convention
CALLERS = 512  # what a function that measures another can take itself, with the arguments that it puts on the stack

# Of a function that calls itself, how many of its calls can be underway at once. The compiled code does not say it: it is by reading the source.
LEVELS = {
    # The first slice is below 2^63 bytes, and each other at most the greatest power of two of chunks of 1,024 bytes that is below the length of the one before.
    "blake3::tree::subtree": 54,
    # The first size is a fourth of a slice's length, and each other half of the one before; one below 2,048 is the last.
    "blake3::lanes::quarters": 51,
    # It sorts at most 256 identifiers, those of a link in a record (`storage::notes`). A call may make 2 * log2(256) partitions before a heap sort takes over, and each
    # call that it makes one less.
    "core::slice::sort::unstable::quicksort::<#d3d4493f0044f892>": 17,
    # Of the same identifiers: the first size is an eighth of their number, 32 at most, and each other an eighth of the one before; one below 8 is the last.
    "core::slice::sort::pivot::median_of_medians::<#d3d4493f0044f892>": 2,
}

Instruction = namedtuple("Instruction", "place next name operands text reference")
Reference = namedtuple("Reference", "kind symbol addend")

# Each register's names: of the whole, and of its parts.
WHOLE = {}
for r in "ax bx cx dx".split():
    WHOLE |= dict.fromkeys(("r" + r, "e" + r, r, r[0] + "l", r[0] + "h"), "r" + r)
for r in "si di bp sp".split():
    WHOLE |= dict.fromkeys(("r" + r, "e" + r, r, r + "l"), "r" + r)
for r in (f"r{n}" for n in range(8, 16)):
    WHOLE |= dict.fromkeys((r, r + "d", r + "w", r + "b"), r)
LOST_IN_CALLS = "rax rcx rdx rsi rdi r8 r9 r10 r11".split()

# Instructions: those that write nothing but flags; those that write their last operand alone, to which any with a vector register belongs; and those that write more, of which
# each is taken to write the registers of all its operands and these six.
READS = r"(cmp|test|bt)[bwlq]?|nop|endbr64|prefetch\w+"
WRITES_LAST = r"(mov(abs|[sz][bwl][wlq])?|lea|add|sub|adc|sbb|inc|dec|neg|not|and|or|xor|imul|shl|shr|sar|rol|ror|rcl|rcr|shld|shrd|bswap|bsf|bsr|bt[src])[bwlq]?|set\w+|cmov\w+"
WRITES_MORE = r"(mul|div|idiv)[bwlq]?|cwtl|cltq|cwtd|cltd|cqto|xchg|xadd|cmpxchg|(movs|cmps)[bwlq]|stos|lods|scas"
WRITTEN_MORE = "rax rbx rcx rdx rsi rdi".split()
VECTOR = r"%[xyz]mm\d+"
VECTOR_WRITES_MORE = r"v?pcmp[ei]str[im]q?"
CONDITIONAL = "ja jae jb jbe je jg jge jl jle jne jno jnp jns jo jp js jecxz jrcxz".split()
ENDS = "ud2 hlt int3".split()
PREFIXES = "rep repz repnz lock notrack bnd".split()
MEMORY = re.compile(r"(-?0x[0-9a-f]+)?\((%\w+)?(?:,(%\w+),(\d))?\)")


# Why the stack of a function cannot be told.
class Untold(Exception):
    pass


# ---- the archive


def not_understood(line):
    sys.exit(f"this line of objdump is not understood: {line}")


def objdump(*words):
    said = subprocess.run(["objdump", *words], capture_output=True, text=True, errors="replace", env={**os.environ, "LC_ALL": "C"})
    if said.returncode or said.stderr:
        sys.exit(f"objdump cannot read it: {said.stderr.strip()}")
    return said.stdout.splitlines()


# A line of objdump's that begins a member; of another machine's code nothing is told.
def begins_member(line):
    m = re.match(r".*:\s+file format (\S+)$", line)
    if m and m[1] != "elf64-x86-64":
        sys.exit(f"not for x86-64: {line}")
    return m


# An instruction as objdump writes it: its name, without prefixes that change nothing here, and its operands, of which a jump's is the bare number.
def name_and_operands(text):
    text = re.sub(r"\s+[#<].*$", "", text)
    if re.match(r"(data16 |cs )*nop[wl]?\b|xchg +%ax,%ax$", text):
        return "nop", []
    words = text.split(None, 1)
    while len(words) == 2 and words[0] in PREFIXES:
        words = words[1].split(None, 1)
    return words[0], re.split(r",(?![^(]*\))", words[1].strip()) if len(words) == 2 else []


# A function: where it stands (member, section, first place), where it ends, and its name.
class Function:
    def __init__(self, at, end, name):
        self.at, self.end, self.name = at, end, name
        self.code = {}  # by place

    def has(self, member, section, place):
        return (member, section) == self.at[:2] and self.at[2] <= place < self.end


class Archive:
    def __init__(self, path):
        self.symbols = []  # of each member: by name, where it stands (section, place)
        self.references = {}  # of each section (member, section): by place, what a relocation names
        self.functions, self.exported, self.shared = {}, {}, {}
        self.named = set()  # places that a lea of any function names: tables begin there
        self.read_symbols(objdump("-t", "-r", path))
        for name in (n for n, places in self.shared.items() if len(places) > 1):
            raise Untold(f"{name} is defined twice")
        self.read_code(objdump("-d", "-z", "--no-show-raw-insn", path))
        for f in self.functions.values():
            for i in f.code.values():
                if i.name == "lea" and i.reference and i.reference.kind == "R_X86_64_PC32":
                    self.named.add(self.find(f.at[0], i.reference))

    def read_symbols(self, lines):
        section = None
        for line in lines:
            if begins_member(line):
                self.symbols.append({})
            elif m := re.match(r"RELOCATION RECORDS FOR \[(.+)\]:$", line):
                section = len(self.symbols) - 1, m[1]
                if section in self.references:
                    raise Untold(f"two sections of one member have the name {m[1]}")
                self.references[section] = {}
            elif m := re.match(r"([0-9a-f]{16}) (R_X86_64_\w+) +(.+?)([+-]0x[0-9a-f]+)?$", line):
                self.references[section][int(m[1], 16)] = Reference(m[2], m[3], int(m[4] or "0", 16))
            elif m := re.match(r"([0-9a-f]{16}) (.{7}) (.+)\t([0-9a-f]{16}) (?:\.(?:hidden|internal|protected) )?(.*)$", line):
                self.add_symbol(int(m[1], 16), m[2], m[3], int(m[4], 16), m[5])
            elif not re.match(r"$|In (nested )?archive |SYMBOL TABLE:$|no symbols$|OFFSET ", line):
                not_understood(line)

    # A symbol; of a file's name there is nothing to know.
    def add_symbol(self, place, flags, section, size, name):
        if flags[5:] == "df":
            return
        member = len(self.symbols) - 1
        self.symbols[member].setdefault(name, set()).add((section, place))
        if flags[0] != "l" and section != "*UND*":
            self.shared.setdefault(name, set()).add((member, section, place))
        if flags[4:] == "  F":
            f = self.functions.setdefault((member, section, place), Function((member, section, place), place + size, name))
            if flags[0] != "l" and name.startswith(EXPORTED):
                self.exported[name] = f

    def read_code(self, lines):
        member, section, code = -1, None, {}
        for line in lines:
            if begins_member(line):
                member += 1
            elif m := re.match(r"Disassembly of section (.+):$", line):
                section = (member, m[1])
                if section in code:
                    raise Untold(f"two sections of one member have the name {m[1]}")
                code[section] = []
            elif m := re.match(r" *([0-9a-f]+):\t(.+)$", line):
                code[section].append((int(m[1], 16), m[2]))
            elif not re.match(r"$|In (nested )?archive |[0-9a-f]{16} <.*>:$", line):
                not_understood(line)
        for f in self.functions.values():
            self.fill(f, code.get(f.at[:2], []))

    def fill(self, f, code):
        references = self.references.get(f.at[:2], {})
        for (place, text), (following, _) in zip(code, code[1:] + [(f.end, "")]):
            if f.at[2] <= place < f.end:
                reference = next((references[p] for p in range(place, following) if p in references), None)
                f.code[place] = Instruction(place, following, *name_and_operands(text), re.sub(r"\s+", " ", text), reference)

    # Where a reference leads that is counted from the end of its four bytes: a place of the archive as (member, section, place), or a name outside.
    def find(self, member, reference):
        _, symbol, addend = reference
        places = self.symbols[member].get(symbol, set())
        found = {(member, *p) for p in places if p[0] != "*UND*"} or self.shared.get(symbol, set())
        if not found:
            return symbol
        if len(found) > 1:
            raise Untold(f"{symbol} is defined twice")
        [(member, section, place)] = found
        return member, section, place + addend + 4

    # The places that a table of numbers leads to, each counted from the table's own place. It ends where another begins, or what is no reference.
    def entries(self, table):
        member, section, start = table
        references, place, found = self.references.get((member, section), {}), start, []
        while place in references and (place == start or (member, section, place) not in self.named):
            kind, symbol, addend = references[place]
            if kind != "R_X86_64_PC32":
                break
            found.append(self.find(member, Reference(kind, symbol, addend - 4 - (place - start))))
            place += 4
        return found


# ---- the paths of a function


def whole(operand):
    return WHOLE.get(operand.lstrip("%")) if operand.startswith("%") else None


# A register of 64 bits by its name; nothing for a part of one.
def is_whole(operand):
    return operand == f"%{whole(operand)}"


def number(text):
    n = int(text.lstrip("$"), 16)
    return n - (1 << 64) if n >= 1 << 63 else n


# The paths of one function. What a register holds is followed along each, where it is one of
#   ("stack", n, where)   the address n bytes below the caller's stack pointer; at most n bytes, where the instruction at `where` rounded it down
#   ("number", n)         this number
#   ("table", at)         the place at (member, section, place)
#   ("entry", at)         a number that was read from the table there
#   ("target", at)        the table's place and that number added
class Paths:
    def __init__(self, archive, function):
        self.archive, self.function = archive, function
        self.before = {}  # by place: what the registers hold there
        self.calls = {}  # by place: the bytes taken before the call, and the function, or the name of one outside
        self.below = 0  # the bytes taken with those below the stack pointer
        self.follow()

    # The most bytes that are taken in the function itself.
    def own(self):
        return max([self.below] + [known["rsp"][1] for known in self.before.values()])

    def follow(self):
        start = self.function.at[2]
        if start not in self.function.code:
            raise Untold(f"{self.function.name} has no code")
        self.before[start] = {"rsp": ("stack", RETURN_ADDRESS, None)}
        left = [start]
        while left:
            i = self.function.code[left.pop()]
            try:
                left += [place for place, known in self.step(i, self.before[i.place]) if self.reached(place, known)]
            except Untold as e:
                raise Untold(f"{self.function.name}, {i.place:x}: {e}: {i.text}") from None

    # Notes that a place is reached; answers whether that makes a difference.
    def reached(self, place, known):
        if place not in self.function.code:
            raise Untold("this leads to where the function has no instruction")
        before = self.before.get(place, known)
        if before["rsp"] != known["rsp"]:
            raise Untold(f"{place:x} is reached with {before['rsp'][1]} and with {known['rsp'][1]} bytes taken, as where room is taken in a loop")
        agreed = {r: v for r, v in known.items() if before.get(r) == v}
        different = self.before.get(place) != agreed
        self.before[place] = agreed
        return different

    # The places that are next, each with what the registers hold there.
    def step(self, i, known):
        loop = self.following(i, 4)
        if is_probing(loop):
            return [self.probed(loop, known)]
        self.uses(i, known)
        if i.name == "call":
            self.leads(i, known["rsp"][1])
            return [(i.next, {r: v for r, v in known.items() if r not in LOST_IN_CALLS})]
        if i.name == "jmp":
            return self.jump(i, known)
        if i.name in CONDITIONAL:
            return self.jump(i, known) + [(i.next, known)]
        if i.name == "ret":
            self.given_back(i, known)
        return [] if i.name == "ret" or i.name in ENDS else [(i.next, self.after(i, known))]

    # A call, or a jump to another function, with these bytes taken before it.
    def leads(self, i, taken):
        if i.operands[0].startswith("*"):
            raise Untold("a call by a pointer")
        target = self.target(i)
        if isinstance(target, str) and (target not in OUTSIDE or i.reference.addend != -4):
            raise Untold(f"{target} is not in the archive")
        if not isinstance(target, str) and target not in self.archive.functions:
            raise Untold("this leads to where no function begins")
        self.calls[i.place] = taken, self.archive.functions.get(target, target)

    def target(self, i):
        if not i.reference:
            return *self.function.at[:2], int(i.operands[0], 16)
        if i.reference.kind not in ("R_X86_64_PLT32", "R_X86_64_PC32"):
            raise Untold(f"{i.reference.kind} is not known here")
        return self.archive.find(self.function.at[0], i.reference)

    def jump(self, i, known):
        if i.operands[0].startswith("*"):
            return [(place, known) for place in self.by_table(i, known)]
        target = self.target(i)
        if not isinstance(target, str) and self.function.has(*target):
            return [(target[2], known)]
        self.given_back(i, known)
        self.leads(i, 0)
        return []

    # The places that a jump by a table leads to.
    def by_table(self, i, known):
        value = known.get(whole(i.operands[0][1:]))
        if not is_whole(i.operands[0][1:]) or not value or value[0] != "target":
            raise Untold("a jump by a pointer")
        targets = self.archive.entries(value[1])
        if not targets or any(isinstance(t, str) or not self.function.has(*t) for t in targets):
            raise Untold("a jump by a table of places that are not all in the function")
        return [place for _, _, place in targets]

    # A function is left with nothing taken but the return address.
    def given_back(self, i, known):
        if known["rsp"] != ("stack", RETURN_ADDRESS, None) or i.name == "ret" and i.operands:
            raise Untold("the function is left with room still taken")

    # Places that an instruction names by an address of the stack: below the stack pointer stands the red zone, and nothing else. A lea uses nothing by itself, so that one farther
    # down is no fault, and one that moves the stack pointer names nothing.
    def uses(self, i, known):
        if i.name == "lea" and i.operands[1] == "%rsp":
            return
        for operand in i.operands:
            m = MEMORY.fullmatch(operand.lstrip("*"))
            kind, depth, *_ = known.get(whole(m[2] or "") if m else None, ("", 0))
            below = depth - number(m[1] or "0x0") - known["rsp"][1] if kind == "stack" else 0
            if below > RED_ZONE and i.name != "lea":
                raise Untold("a place below the stack pointer")
            if 0 < below <= RED_ZONE:
                self.below = max(self.below, known["rsp"][1] + RED_ZONE)

    # What the registers hold after an instruction that goes on to the next.
    def after(self, i, known):
        known = dict(known)
        if i.name in ("push", "pushq", "pop", "popq"):
            self.push_or_pop(i, known)
        elif i.name == "leave":
            known["rsp"] = known.pop("rbp", ("",))
            self.moved(known, -8)
        elif self.writes_more(i):
            for r in WRITTEN_MORE + [whole(o) for o in i.operands]:
                known.pop(r, None)
        elif self.writes_last(i):
            value = self.value(i, known)
            known.pop(whole(i.operands[-1]), None)
            if value:
                known[whole(i.operands[-1])] = value
        elif not re.fullmatch(READS, i.name):
            raise Untold("what this does to the stack pointer is not known here")
        if known.get("rsp", ("",))[0] != "stack":
            raise Untold("the stack pointer is changed by what is not known before the program runs")
        if known["rsp"][1] < RETURN_ADDRESS:
            raise Untold("more is given back than was taken")
        return known

    def writes_more(self, i):
        return re.fullmatch(WRITES_MORE, i.name) or re.fullmatch("imul[bwlq]?", i.name) and len(i.operands) == 1

    def writes_last(self, i):
        vector = any(re.fullmatch(VECTOR, o) for o in i.operands) and not re.fullmatch(VECTOR_WRITES_MORE, i.name)
        return vector or i.operands and re.fullmatch(WRITES_LAST, i.name)

    def push_or_pop(self, i, known):
        operand = i.operands[0]
        if operand.startswith("%") and not is_whole(operand):
            raise Untold("what this does to the stack pointer is not known here")
        self.moved(known, 8 if i.name.startswith("push") else -8)
        if i.name.startswith("pop"):
            known.pop(whole(operand), None)

    # The stack pointer goes down by n bytes.
    def moved(self, known, n):
        if known["rsp"][0] == "stack":
            _, depth, where = known["rsp"]
            known["rsp"] = "stack", depth + n, where

    # What an instruction leaves in the register that it writes, if that is followed.
    def value(self, i, known):
        if len(i.operands) != 2 or not whole(i.operands[1]):
            return None
        source, to = i.operands
        if i.name in ("mov", "movabs") and source.startswith("$") and (is_whole(to) or to[1] == "e" or to[-1] == "d"):
            return "number", number(source)
        if not is_whole(to):
            return None
        if i.name in ("lea", "movslq"):
            return self.of_memory(i, known)
        given = ("number", number(source)) if source.startswith("$") else known.get(whole(source)) if is_whole(source) else None
        if i.name == "mov" or not given:
            return given
        return self.of_two(i, known.get(whole(to), ("",)), given)

    # What add, sub and and leave of what was there and what is given: a place of a table and a number of it, or an address of the stack and a number.
    def of_two(self, i, there, given):
        if i.name == "add" and {there[0], given[0]} == {"table", "entry"} and there[1] == given[1]:
            return "target", given[1]
        if there[0] != "stack" or given[0] != "number":
            return None
        (_, depth, where), (_, n) = there, given
        if i.name in ("add", "sub"):
            return "stack", depth + (n if i.name == "sub" else -n), where
        if i.name == "and" and n < 0 and -n & (-n - 1) == 0:  # down to a multiple of -n, a power of two
            return "stack", depth - n - 1, i.place
        return None

    # What lea and movslq leave: an address of the stack, a table's place, or a number of a table.
    def of_memory(self, i, known):
        m = MEMORY.fullmatch(i.operands[0])
        if not m or not m[2]:
            return None
        if i.name == "lea" and m[2] == "%rip" and i.reference and i.reference.kind == "R_X86_64_PC32":
            return "table", self.archive.find(self.function.at[0], i.reference)
        kind, *rest = known.get(whole(m[2]), ("",))
        if i.name == "lea" and kind == "stack" and not m[3]:
            return kind, rest[0] - number(m[1] or "0x0"), rest[1]
        if i.name == "movslq" and kind == "table" and not m[1] and m[4] == "4":
            return "entry", *rest
        return None

    # An instruction with those behind it, n in all where there are so many.
    def following(self, i, n):
        found = [i]
        while len(found) < n and found[-1].next in self.function.code:
            found.append(self.function.code[found[-1].next])
        return found

    # Behind a loop of probes the stack pointer is what the register held that it is compared with.
    def probed(self, loop, known):
        sub, _, compare, back = loop
        register = next(o for o in compare.operands if o != "%rsp")
        to, step, (_, depth, where) = known.get(whole(register), ("",)), number(sub.operands[0]), known["rsp"]
        if not is_whole(register) or to[0] != "stack" or to[2] != where or step <= 0 or to[1] <= depth or (to[1] - depth) % step:
            raise Untold("the stack pointer is changed by what is not known before the program runs")
        return back.next, known | {"rsp": to}


# Pages that are touched on the way down: `sub $n,%rsp`, a store to (%rsp), a `cmp` of the stack pointer with a register, and a `jne` back to the sub.
def is_probing(loop):
    if len(loop) < 4:
        return False
    sub, store, compare, back = loop
    return (
        (sub.name, sub.operands[1:]) == ("sub", ["%rsp"])
        and sub.operands[0].startswith("$")
        and store.name in ("movq", "orq", "movl", "orl")
        and store.operands == ["$0x0", "(%rsp)"]
        and compare.name == "cmp"
        and "%rsp" in compare.operands
        and (back.name, back.reference) == ("jne", None)
        and int(back.operands[0], 16) == sub.place
    )


# ---- chains of calls


# Of each function the bytes that it takes with all that it calls, and the chain of calls in which it takes them.
class Depths:
    def __init__(self, archive):
        self.paths, self.problems = {}, []
        self.found, self.underway = {}, []
        for f in archive.functions.values():
            try:
                self.paths[f] = Paths(archive, f)
            except Untold as e:
                self.problems.append(str(e))

    # The bytes, and the chain as (name, bytes taken before the next one's return address).
    def of(self, f):
        if isinstance(f, str):
            return RETURN_ADDRESS, [(f, RETURN_ADDRESS)]
        if f not in self.found:
            if f in self.underway:
                raise Untold("a cycle of calls: " + " > ".join(g.name for g in self.underway[self.underway.index(f) :] + [f]))
            self.underway.append(f)
            self.found[f] = self.computed(f)
            self.underway.pop()
        return self.found[f]

    def computed(self, f):
        own, calls = self.paths[f].own(), self.paths[f].calls.values()
        itself = [taken for taken, called in calls if called is f]
        if itself and f.name not in LEVELS:
            raise Untold(f"a cycle of calls: {f.name} > {f.name}")
        best = own, [(f.name, own)]
        for taken, called in calls:
            more, chain = self.of(called) if called is not f else (0, [])
            if taken + more > best[0]:
                best = taken + more, [(f.name, taken)] + chain
        above = [max(itself)] * (LEVELS[f.name] - 1) if itself else []
        return best[0] + sum(above), [(f.name, taken) for taken in above] + best[1]


# ---- what is told


# Of each exported function, by its name without the front that all have, its bytes and its chain. Every function of the archive has to be told.
def bounds(path):
    archive = Archive(path)
    depths = Depths(archive)
    if depths.problems:
        raise Untold("\n".join(depths.problems))
    for f in archive.functions.values():
        depths.of(f)
    if not archive.exported:
        raise Untold(f"no function has a name that begins with {EXPORTED}")
    return {name.removeprefix(EXPORTED): depths.of(f) for name, f in sorted(archive.exported.items())}


def told_chain(chain):
    runs = [(link, len(list(same))) for link, same in groupby(chain)]
    return " > ".join(f"{name} {taken}" + f" ({n} times)" * (n > 1) for (name, taken), n in runs)


# What was measured of a function has to be told, and not to be deeper.
def compared(found, measured):
    for name, n in measured.items():
        if name not in found:
            yield f"{name} was measured, and its bound is not told"
        elif n > found[name][0] + CALLERS:
            yield f"{name} was measured deeper than its bound"


def main(words):
    chains = "--chains" in words
    path, limit, measured, *more = [w for w in words if w != "--chains"] + [None] * 3
    if not path or any(more) or not (limit or "0").isdigit():
        sys.exit("usage: tests/c/stack_bound.py [--chains] ARCHIVE [LIMIT [MEASURED]]")
    try:
        found = bounds(path)
    except Untold as e:
        sys.exit(f"the stack cannot be told:\n{e}")
    measured = {name: int(n) for name, n in map(str.split, open(measured))} if measured else {}
    told = ", ".join(f"{name} {n}" + (f" ({measured[name]})" if name in measured else "") for name, (n, _) in found.items())
    left = f"; of {limit} at least {int(limit) - max(n for n, _ in found.values())} are left for {', '.join(OUTSIDE)}, which are not counted" if limit else ""
    print(f"stack: in bytes, at most{' (and measured)' if measured else ''}: {told}{left}")
    for name, (_, chain) in found.items() if chains else []:
        print(f"{name}: {told_chain(chain)}")
    wrong = list(compared(found, measured))
    wrong += [f"{name} takes more than {limit} bytes: {told_chain(chain)}" for name, (n, chain) in found.items() if limit and n > int(limit)]
    if wrong:
        sys.exit("\n".join(wrong))


if __name__ == "__main__":
    main(sys.argv[1:])
