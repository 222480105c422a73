#!/usr/bin/env python3
"""The stored input of crates/panelrun_long, and what the Rust writes for it.

    make.py          # makes crates/panelrun_long/stdin and stdout again, byte for byte
    make.py check    # compares them, and the other stored runs, with the Rust's answer

Both run the oracle (tests/rust/build.sh), whose command `panel` gives what `panelrun` writes: the
Rust's state machine, with the specification's questions and panelrun's settings and limits around it.
The Rust has no quiet neighbours: a stored run is compared up to its first event of kind 5.
"""
import collections
import pathlib
import random
import subprocess
import sys

HERE = pathlib.Path(__file__).resolve().parent
sys.path.insert(0, str(HERE.parent / "rust"))
import gen  # noqa: E402
from b3 import blake3  # noqa: E402

ORACLE = HERE.parent / "target" / "release" / "oracle"
CRATES = HERE.parent.parent / "crates"
SHOWN = CRATES / "panelrun_show" / "data"
RUNS = CRATES.parent / "bindings" / "rust" / "tests" / "runs"
TOP = 1 << 62
UP_QUIET = b"\5"


def record(now, event):
    return gen.num(now) + gen.num(len(event)) + event


def panel(data):
    """What the Rust writes for this input."""
    line = subprocess.run([ORACLE], input=f"panel {data.hex() or '-'}\n", capture_output=True, text=True, check=True).stdout.strip()
    return b"" if line == "-" else bytes.fromhex(line)


def drawn(seed, count, bad):
    """Records of the oracle's generator, with the default settings; none of kind 5."""
    s = gen.Section(random.Random(seed), "default", 0, bad, False)
    while s.n < count:
        s.one()
    for line in s.lines:
        words = line.split()
        if words[0] == "ev":
            event = b"" if words[3] == "-" else bytes.fromhex(words[3])
            if event[:1] != UP_QUIET:
                yield int(words[1]), event


def long_input():
    r = random.Random(4094)
    rows = []

    def call(now, event):
        rows.append(record(now, event))

    # The first event of a panel, then one neighbour more than N, told up twice.
    call(0, gen.EVICT)
    for p in [2, 3, 4, 5, 300, 2**32, 2**63, 2**64 - 1, 9, 9, 2]:
        call(1, gen.up(p))
    # A reading from each side: new, again, from a stranger, of the last round, not valid, to neighbours only.
    for k in range(12):
        content = b"burner %d: %d C" % (k, 1400 + 7 * k)
        i = blake3(content)
        call(10 + k, gen.recv(2, gen.gossip(i, content, k)))
        call(10 + k, gen.recv(3, gen.gossip(i, content, 0)))
    call(30, gen.recv(77, gen.gossip(blake3(b"stranger"), b"stranger", 3)))
    call(31, gen.recv(4, gen.gossip(blake3(b"far"), b"far", 65535)))
    call(31, gen.recv(4, gen.gossip(blake3(b"far"), b"far", 65534)))
    call(32, gen.recv(4, gen.gossip(blake3(b"false"), b"other", 1)))
    call(33, gen.recv(4, gen.gossip(blake3(b"near"), b"near", None)))
    # Announced, grafted, answered late; ticks of every kind.
    lost = blake3(b"lost and found")
    call(40, gen.recv(5, gen.ihave([(lost, 2), (blake3(b"never"), 4)])))
    call(120, gen.send_graft(lost))
    call(121, gen.recv(300, gen.gossip(lost, b"lost and found", 9)))
    call(122, gen.recv(5, gen.gossip(lost, b"lost and found", 3)))
    call(130, gen.DISPATCH)
    call(140, gen.recv(2, gen.graft(lost, 3)))
    call(141, gen.recv(3, gen.prune()))
    call(150, gen.ANNOUNCE)
    # Padded numbers: a round, all at their greatest length, each other one; a byte over; a kind that is judged at its last byte.
    mill = blake3(b"mill 2")
    call(160, gen.recv(2, gen.gossip(mill, b"mill 2", 0, hops=2)))
    call(161, gen.recv(3, gen.gossip(mill, b"mill 2", 0, 5, 10, 5, 3)))
    call(162, gen.recv(3, gen.gossip(blake3(b"mill 3"), b"mill 3", None, 2, 2, 2)))
    call(163, gen.recv(2, gen.graft(mill, 1, 2, 2)))
    call(164, gen.recv(5, gen.ihave([(blake3(b"mill 4"), 4), (mill, 128)], 2, 2, 3)))
    call(165, gen.recv(5, gen.prune(5)))
    for over in [gen.prune(6), gen.graft(None, 0, hops=4), gen.ihave([], count=11), gen.gossip(mill, b"mill 2", 0, length=11), b"\x84", b"\x84\0"]:
        call(166, gen.recv(2, over))
    # Broadcasts: small, with byte 1, the largest that is sent, larger, and as large as an event can be.
    call(200, gen.broadcast(b"kiln 1 stop"))
    call(201, gen.broadcast(b"kiln 2 stop", 1))
    call(202, gen.broadcast(r.randbytes(4055)))
    call(203, gen.broadcast(r.randbytes(4056)))
    call(204, gen.broadcast(r.randbytes(16380)))
    call(205, gen.broadcast(r.randbytes(16381))[:16384])
    # More content than B.
    call(206, gen.broadcast(r.randbytes(4055)))
    call(207, gen.recv(2, gen.gossip(blake3(b"x" * 4000), b"x" * 4000, 0)))
    # A message over M, by its content or by padding alone, and as long as an event can be; bytes after the end; nothing at all.
    call(208, gen.recv(2, gen.gossip(blake3(b"y" * 4060), b"y" * 4060, 0)))
    call(208, gen.recv(2, gen.gossip(blake3(b"y" * 4057), b"y" * 4057, 0)))
    call(208, gen.recv(2, gen.gossip(blake3(b"y" * 4057), b"y" * 4057, 0, hops=2)))
    call(209, gen.recv(2, gen.gossip(blake3(b"z" * 16343), b"z" * 16343, 65534)))
    call(210, gen.recv(3, gen.gossip(blake3(b"w"), b"w", 0)) + b"\0" * 16000)
    call(211, b"")
    # Times at the end of the scale; then 90 seconds on, so that everything expires, and back.
    call(TOP + 1, gen.EVICT)
    call(2**64 - 1, gen.up(2))
    call(91000, gen.EVICT)
    for now, event in drawn(1, 260, 6):
        call(now, event)
    call(TOP, gen.EVICT)
    for now, event in drawn(2, 160, 4):
        call(now, event)
    for p in [2, 3, 2**64 - 1, 77]:
        call(5, gen.down(p))
    # A length that is not shortest ends it; what follows is not read.
    rows.append(gen.num(6) + b"\x82\x00" + gen.up(3))
    rows.append(record(7, gen.EVICT))
    assert max(map(len, rows)) == 2 + 3 + 16384
    return b"".join(rows)


def number(data, at):
    """A number, and the place behind it."""
    n = shift = 0
    while True:
        b, at = data[at], at + 1
        n |= (b & 127) << shift
        shift += 7
        if b < 128:
            return n, at


def answers(out):
    """The answer byte and the actions of each record."""
    at = 0
    while at < len(out):
        answer = out[at]
        n, at = number(out, at + 1)
        yield answer, out[at:at + n]
        at += n


def before_quiet(data):
    """The records before the first one of kind 5; all the bytes where there is none."""
    at = 0
    try:
        while at < len(data):
            begin = at
            _, at = number(data, at)
            n, at = number(data, at)
            if data[at:at + 1] == UP_QUIET and n:
                return data[:begin]
            at += n
    except IndexError:
        pass
    return data


def check(given, written):
    """What is stored is the Rust's, up to the first event of kind 5."""
    before = before_quiet(given.read_bytes())
    rust, stored = panel(before), written.read_bytes()
    if before == given.read_bytes():
        assert stored == rust, f"{written} is not what the Rust writes"
    else:
        assert rust and stored.startswith(rust), f"{written} does not begin with what the Rust writes"


def stored():
    """The stored inputs and outputs of `panelrun`."""
    for crate in "panelrun", "panelrun_long":
        yield CRATES / crate / "stdin", CRATES / crate / "stdout"
    yield SHOWN / "input", SHOWN / "output"
    for given in sorted(RUNS.glob("*.input")):
        yield given, given.with_suffix(".output")


def main():
    made = CRATES / "panelrun_long"
    data = long_input()
    out = panel(data)
    if sys.argv[1:] == ["check"]:
        assert (made / "stdin").read_bytes() == data, "crates/panelrun_long/stdin is not what is made here"
        for given, written in stored():
            check(given, written)
        for part in "input", "output":
            assert (SHOWN / part).read_bytes() == (RUNS / f"quiet.{part}").read_bytes(), f"{SHOWN / part} is not that of the run quiet"
        print("panelrun: the stored outputs are the Rust's")
        return
    (made / "stdin").write_bytes(data)
    (made / "stdout").write_bytes(out)
    count = collections.Counter(n for n, _ in answers(out))
    first = collections.Counter(a[0] for n, a in answers(out) if a)
    print(f"{len(data)} bytes, {sum(count.values())} answers: {dict(sorted(count.items()))}; {len(out)} bytes written; first actions {dict(sorted(first.items()))}")
    assert set(count) == {0, 6, 7, 8, 9, 10, 12, 13, 23} and out.endswith(b"\7\0")


if __name__ == "__main__":
    main()
