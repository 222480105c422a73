#!/usr/bin/env python3
# tests/c/stack_bound.py on small archives: what it tells is what their code takes, and what it cannot tell it refuses, each with its sentence.
# Usage: tests/c/stack_bound_test.py
import contextlib, io, os, subprocess, sys, tempfile

sys.dont_write_bytecode = True
import stack_bound

ASM = ("-x", "assembler")
C = ("-x", "c", "-O2", "-fPIC", "-fno-stack-protector", "-fcf-protection=full", "-fno-reorder-blocks-and-partition")

# Functions in assembler and the bytes that each takes. The return address is 8 of them; `leaf` takes these alone, `deep` 1,000 more.
TOLD = {
    "nothing": ("ret", 8),
    "pushes": ("push %rbx; sub $32,%rsp; call leaf; add $32,%rsp; pop %rbx; ret", 8 + 8 + 32 + 8),
    "deepest": ("push %rax; call leaf; pop %rax; call deep; ret", 8 + 1008),
    "outside": ("sub $8,%rsp; call memset@PLT; add $8,%rsp; ret", 8 + 8 + 8),
    "tail": ("push %rax; pop %rax; jmp deep", 1008),
    "tail_if": ("test %edi,%edi; je deep; ret", 1008),
    "below": ("mov %rdi,-8(%rsp); push %rax; pop %rax; ret", 8 + 128),
    "below_by_frame": ("push %rbp; mov %rsp,%rbp; mov %edi,-20(%rbp); pop %rbp; ret", 8 + 8 + 128),
    "frame": ("push %rbp; mov %rsp,%rbp; sub $64,%rsp; mov %edi,-4(%rbp); leave; ret", 8 + 8 + 64),
    "aligned": ("push %rbp; mov %rsp,%rbp; push %rbx; and $-64,%rsp; sub $128,%rsp; call leaf; lea -8(%rbp),%rsp; pop %rbx; pop %rbp; ret", 8 + 8 + 8 + 63 + 128 + 8),
    "by_register": ("mov $40000,%eax; sub %rax,%rsp; add $40000,%rsp; ret", 8 + 40000),
    "by_lea": ("lea -24(%rsp),%rsp; lea 24(%rsp),%rsp; ret", 8 + 24),
    "backwards": ("add $-128,%rsp; sub $-128,%rsp; ret", 8 + 128),
    "probed": ("mov %rsp,%r11; sub $0x9000,%r11; 1: sub $0xc00,%rsp; movq $0,(%rsp); cmp %r11,%rsp; jne 1b; sub $8,%rsp; add $0x9008,%rsp; ret", 8 + 0x9008),
    "probed_by_lea": ("lea -0x5000(%rsp),%r11; 1: sub $0x1000,%rsp; orq $0,(%rsp); cmp %r11,%rsp; jne 1b; add $0x5000,%rsp; ret", 8 + 0x5000),
    "in_a_loop": ("push %rbx; 1: push $1; push $2; call deep; add $16,%rsp; dec %ebx; jne 1b; pop %rbx; ret", 8 + 8 + 16 + 1008),
    "ends": ("push %rax; ud2; push %rcx", 8 + 8),
    # two tables one behind the other: the first jumps to what calls `leaf`, or `deep`; the second to what calls `leaf` alone
    "by_table": (
        "lea 5f(%rip),%rcx; movslq (%rcx,%rdi,4),%rax; add %rcx,%rax; xor %ecx,%ecx; notrack jmp *%rax; 1: call leaf; ret; 2: call deep; ret;"
        " .section .rodata; 5: .long 1b-5b, 2b-5b; .text",
        8 + 1008,
    ),
    "by_second_table": (
        "lea 6f(%rip),%rdx; movslq (%rdx,%rsi,4),%rsi; add %rdx,%rsi; jmp *%rsi; 1: call leaf; ret; 2: push %rax; call leaf; pop %rax; ret;"
        " .section .rodata; 6: .long 1b-6b, 2b-6b; .text",
        8 + 8 + 8,
    ),
}


# A jump to rax behind these instructions, by this table, which rcx holds.
def by_table(instructions, table):
    return f"lea 5f(%rip),%rcx; {instructions}; jmp *%rax; 1: ret; .section .rodata; 5: .long {table}; .text"


# A loop of probes behind these instructions.
def probes(before, taken, store="movq $0,(%rsp)", compare="cmp %r11,%rsp", back="jne 1b"):
    return f"{before}; 1: {taken}; {store}; {compare}; {back}; ud2"


# Functions of which the stack cannot be told, and why.
UNTOLD = {
    "loaded": ("mov (%rdi),%rsp; ret", "changed by what is not known"),
    "exchanged": ("xchg %rsp,%rax; ret", "changed by what is not known"),
    "half": ("sub $16,%esp; add $16,%esp; ret", "changed by what is not known"),
    "of_vector": ("movq %xmm0,%rsp; ret", "changed by what is not known"),
    "unknown_number": ("sub %rdi,%rsp; add %rdi,%rsp; ret", "changed by what is not known"),
    "lost_number": ("mov $64,%eax; sub %rax,%rsp; call memset@PLT; add %rax,%rsp; ret", "changed by what is not known"),
    "written_by_division": ("mov $64,%eax; div %ecx; sub %rax,%rsp; ret", "changed by what is not known"),
    "other_number": ("push %rax; mov $8,%eax; test %edi,%edi; je 1f; mov $16,%eax; 1: add %rax,%rsp; ret", "changed by what is not known"),
    "probed_past": (probes("lea -0x9001(%rsp),%r11", "sub $0xc00,%rsp"), "changed by what is not known"),
    "probed_upwards": (probes("lea -0xc00(%rsp),%r11", "sub $-0xc00,%rsp"), "changed by what is not known"),
    "probed_to_above": (probes("lea 0xc00(%rsp),%r11", "sub $0xc00,%rsp"), "changed by what is not known"),
    "probed_rounded": (probes("push %rbp; mov %rsp,%rbp; lea -0xc3f(%rsp),%r11; and $-64,%rsp", "sub $0xc00,%rsp"), "changed by what is not known"),
    "probed_otherwise": (probes("lea -0x1800(%rsp),%r11", "sub $0xc00,%rsp", back="ja 1b"), "as where room is taken in a loop"),
    "probed_from_elsewhere": (probes("lea -0x1800(%rsp),%r11; 2: nop", "sub $0xc00,%rsp", back="jne 2b"), "as where room is taken in a loop"),
    "probed_by_others": (probes("lea -0x1800(%rsp),%r11", "sub $0xc00,%rsp", compare="cmp %r11,%r10"), "as where room is taken in a loop"),
    "probed_to_change": (probes("lea -0x1800(%rsp),%r11", "sub $0xc00,%rsp", store="movq %xmm0,%r11"), "as where room is taken in a loop"),
    "by_index": ("lea -64(%rsp,%rdi,8),%rsp; ret", "changed by what is not known"),
    "to_no_power": ("and $-24,%rsp; ret", "changed by what is not known"),
    "rounded": ("and $-16,%rsp; add $15,%rsp; ret", "left with room still taken"),
    "flags": ("pushf; popf; ret", "what this does to the stack pointer is not known here"),
    "entered": ("enter $16,$0; leave; ret", "what this does to the stack pointer is not known here"),
    "two_bytes": ("push %ax; pop %ax; ret", "what this does to the stack pointer is not known here"),
    "loop": ("1: sub $16,%rsp; dec %edi; jne 1b; ret", "as where room is taken in a loop"),
    "gives_back_in_a_loop": ("sub $160,%rsp; 1: add $16,%rsp; dec %edi; jne 1b; ret", "as where room is taken in a loop"),
    "two_ways": ("test %edi,%edi; je 1f; push %rax; 1: ret", "as where room is taken in a loop"),
    "gives_back_one_way": ("push %rax; test %edi,%edi; je 1f; pop %rax; 1: ret", "as where room is taken in a loop"),
    "too_much": ("pop %rax; push %rax; ret", "more is given back than was taken"),
    "kept": ("push %rax; ret", "left with room still taken"),
    "jumps_with_room": ("push %rax; jmp leaf", "left with room still taken"),
    "takes_arguments": ("ret $8", "left with room still taken"),
    "far_below": ("mov %rdi,-200(%rsp); ret", "a place below the stack pointer"),
    "far_below_by_lea": ("lea -4096(%rsp),%rax; mov %rdi,(%rax); ret", "a place below the stack pointer"),
    "by_pointer": ("push %rax; call *%rdi; pop %rax; ret", "a call by a pointer"),
    "by_pointer_in_memory": ("push %rax; call *8(%rdi); pop %rax; ret", "a call by a pointer"),
    "jumps_by_pointer": ("jmp *%rdi", "a jump by a pointer"),
    "jumps_by_pointer_in_memory": ("jmp *(%rdi)", "a jump by a pointer"),
    "jumps_by_function": ("lea leaf(%rip),%rax; jmp *%rax", "a jump by a pointer"),
    "lost_table": (by_table("push %rax; call memset@PLT; pop %rax; movslq (%rcx,%rdi,4),%rax; add %rcx,%rax", "1b-5b"), "a jump by a pointer"),
    "past_table": (by_table("movslq 4(%rcx,%rdi,4),%rax; add %rcx,%rax", "1b-5b"), "a jump by a pointer"),
    "wide_table": (by_table("movslq (%rcx,%rdi,8),%rax; add %rcx,%rax", "1b-5b"), "a jump by a pointer"),
    "other_table": (by_table("lea 6f(%rip),%rdx; movslq (%rcx,%rdi,4),%rax; add %rdx,%rax", "1b-5b; 6: .long 1b-6b"), "a jump by a pointer"),
    "table_leads_out": (by_table("movslq (%rcx,%rdi,4),%rax; add %rcx,%rax", "1b-5b, leaf-5b"), "places that are not all in the function"),
    "no_table": (by_table("movslq (%rcx,%rdi,4),%rax; add %rcx,%rax", "0"), "places that are not all in the function"),
    "into_another": ("jmp deep+7", "where no function begins"),
    "calls_into_another": ("push %rax; call deep+7; pop %rax; ret", "where no function begins"),
    "calls_into_itself": ("push %rax; call 1f; 1: pop %rax; pop %rax; ret", "where no function begins"),
    "into_an_instruction": ("jmp .+3; mov $1,%eax; ret", "where the function has no instruction"),
    "no_end": ("push %rax; pop %rax", "where the function has no instruction"),
    "not_here": ("push %rax; call malloc@PLT; pop %rax; ret", "malloc is not in the archive"),
    "jumps_not_here": ("jmp malloc@PLT", "malloc is not in the archive"),
}

# Functions that gcc neither joins nor copies.
ALONE = "__attribute__((noipa))"
# The same from C, as a compiler writes it.
UNTOLD_C = f"""
    {ALONE} void use(volatile char *p) {{ *p = 1; }}
    void plumtree_by_pointer(void (*f)(char *)) {{ char a[8]; f(a); use(a); }}
    void plumtree_last_by_pointer(void (*f)(void)) {{ f(); }}
    void plumtree_in_a_loop(int n) {{ while (n--) use(__builtin_alloca(64)); }}
    void plumtree_unknown(int n) {{ use(__builtin_alloca(n)); }}
"""
WHY_C = {"by_pointer": "a call by a pointer", "last_by_pointer": "a jump by a pointer", "in_a_loop": "as where room is taken in a loop", "unknown": "changed by what is not known"}

PAIR = f"int even(int), odd(int); {ALONE} int even(int n) {{ return n ? 1 + odd(n - 1) : 1; }} {ALONE} int odd(int n) {{ return n ? 2 + even(n - 1) : 0; }}"
LARGE = "int plumtree_large(int n) { volatile char a[70000]; a[n] = 1; return a[0]; } void plumtree_small(void) {}"
SWITCH = f"""
    {ALONE} int a(int n) {{ return n + 1; }} {ALONE} int b(int n) {{ return n * 3; }} {ALONE} int c(int n) {{ return n - 5; }} {ALONE} int d(int n) {{ return n ^ 7; }}
    {ALONE} int e(int n) {{ volatile char a[1000]; a[n] = 1; return a[0]; }}
    int plumtree_switch(int n) {{
        switch (n) {{ case 0: return a(n) + 1; case 1: return b(n) + 2; case 2: return c(n) + 3; case 3: return d(n) + 4; case 4: return e(n) + 5; default: return 0; }}
    }}
"""


# Lines that a measurement writes, what is shown beside the bounds of TOLD, and how it ends.
MEASURED = (
    ("pushes 64", "pushes 56 (64), tail 1008", ""),
    ("pushes 1000", "pushes 56 (1000), tail 1008", "pushes was measured deeper than its bound"),
    ("other 8", "pushes 56, tail 1008", "other was measured, and its bound is not told"),
)


def assembler(name, body, shared=True):
    lines = "\n".join(line.strip() for line in body.split(";"))
    return f".text\n{f'.globl {name}' * shared}\n.type {name}, @function\n{name}:\n{lines}\n.size {name}, .-{name}\n"


LEAVES = assembler("leaf", "ret", shared=False) + assembler("deep", "sub $1000,%rsp; add $1000,%rsp; ret", shared=False)


# An archive of members, each a text and the language and flags for gcc.
def archive(folder, *members):
    path = os.path.join(folder, "lib.a")
    objects = []
    for n, (text, *flags) in enumerate(members):
        objects.append(os.path.join(folder, f"{n}.o"))
        subprocess.run(["gcc", *flags, "-c", "-o", objects[-1], "-"], input=text, text=True, check=True)
    with contextlib.suppress(FileNotFoundError):
        os.remove(path)
    subprocess.run(["ar", "rc", path, *objects], check=True)
    return path


# What the tool says of an archive, with how it ended: nothing, or why it fails.
def said(*words):
    out = io.StringIO()
    with contextlib.redirect_stdout(out):
        try:
            stack_bound.main(list(words))
        except SystemExit as e:
            return out.getvalue(), str(e.code)
    return out.getvalue(), ""


# What is told has this in it; or it is nothing, where nothing is wanted.
def expect(found, wanted, what):
    if wanted not in found or found and not wanted:
        sys.exit(f"{what}: {wanted!r} is not told, but {found!r}")


# Each function, and no other, is refused with its sentence.
def refused(path, why):
    _, end = said(path)
    found = {line.split(",")[0].removeprefix("plumtree_"): line for line in end.splitlines()[1:]}
    for name in why.keys() | found.keys():
        expect(found.get(name, "nothing"), why.get(name, "nothing"), name)


def several(functions):
    return LEAVES + "".join(assembler(f"plumtree_{name}", body) for name, (body, _) in functions.items())


def told_and_measured(folder):
    path = archive(folder, (several(TOLD), *ASM))
    out, end = said(path, "65536")
    expect(end, "", "what can be told")
    expect(out, ": " + ", ".join(f"{name} {n}" for name, (_, n) in sorted(TOLD.items())) + "; of 65536", "the bytes")
    expect(out, f"; of 65536 at least {65536 - 40008} are left", "what is left")
    expect(said("--chains", path)[0], "deepest: plumtree_deepest 8 > deep 1008\n", "a chain")
    expect(said(path, "40007")[1], "by_register takes more than 40007 bytes: plumtree_by_register 40008", "over the limit")
    measured = os.path.join(folder, "measured")
    for line, shown, wanted in MEASURED:
        with open(measured, "w") as f:
            f.write(line + "\n")
        out, end = said(path, "65536", measured)
        expect(out, shown, line)
        expect(end, wanted, line)


# Two members have functions of one name, each its own, and each calls a function of the other.
def members(folder):
    one = assembler("plumtree_one", "call help; push %rax; call plumtree_leaf; pop %rax; ret") + assembler("plumtree_end", "ret")
    two = assembler("plumtree_two", "call help; jmp plumtree_end") + assembler("plumtree_leaf", "sub $96,%rsp; add $96,%rsp; ret")
    one += assembler("help", "ret", shared=False)
    two += assembler("help", "push %rax; pop %rax; ret", shared=False)
    out, end = said(archive(folder, (one, *ASM), (two, *ASM)))
    expect(out + end, ": end 8, leaf 104, one 120, two 24\n", "two members")
    again = two + assembler("plumtree_end", "ret")
    expect(said(archive(folder, (one, *ASM), (again, *ASM)))[1], "plumtree_end is defined twice", "a function that stands twice")
    expect(said(archive(folder, (LEAVES, *ASM)))[1], "no function has a name that begins with plumtree_", "an archive without calls")
    expect(said(archive(folder, ("void plumtree_of_32(void) {}", *C, "-m32")))[1], "not for x86-64", "another machine")


def compiled(folder):
    refused(archive(folder, (UNTOLD_C, *C)), WHY_C)
    expect(said(archive(folder, (LARGE, *C)), "65536")[1], "large takes more than 65536 bytes", "a large frame")
    expect(said("--chains", archive(folder, (SWITCH, *C)))[0], " > e 10", "a switch, as a compiler writes it")


def cycles(folder):
    for what, calls in (("a pair", "push %rax; call odd; pop %rax; ret"), ("a pair that no call reaches", "ret")):
        expect(said(archive(folder, (PAIR, *C), (assembler("plumtree_calls", calls), *ASM)))[1], "odd > even", what)
    # The assembler writes no relocation for a call of a function that no other file knows.
    itself = assembler("itself", "test %edi,%edi; je 1f; push %rax; dec %edi; call itself; pop %rax; 1: ret", shared=False)
    path = archive(folder, (itself + assembler("plumtree_calls", "push %rax; call itself; pop %rax; ret"), *ASM))
    expect(said(path)[1], "a cycle of calls: itself > itself", "a function that calls itself")
    stack_bound.LEVELS["itself"] = 10
    expect(said("--chains", path)[0], f"calls {16 + 10 * 16}\ncalls: plumtree_calls 16 > itself 16 (10 times)\n", "ten levels")


def main():
    with tempfile.TemporaryDirectory() as folder:
        told_and_measured(folder)
        members(folder)
        refused(archive(folder, (several(UNTOLD), *ASM)), {name: why for name, (_, why) in UNTOLD.items()})
        compiled(folder)
        cycles(folder)
    print("tests/c: the bound of the stack is that of the code, and what cannot be told is refused")


if __name__ == "__main__":
    main()
