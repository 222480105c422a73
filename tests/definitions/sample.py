#!/usr/bin/env python3
"""The Rust's answers as a theorem about the definitions.

    sample.py extra                         a few sections by hand, for SCRIPT: counts at their end, a full record, `kept`,
                                            padded numbers, quiet neighbours
    sample.py choose SCRIPT ANSWERS CALLS   from a long script and the Rust's answers to it, choose short sections that
                                            together show every kind of call and answer, and write both to CALLS
    sample.py module CALLS > MODULE         the module in which the definitions are computed on CALLS and compared
    sample.py replay CALLS PROGRAM          do the commands of CALLS still get these answers from the Rust?

SCRIPT and ANSWERS are input and output of the program of tests/rust. CALLS has a line for each command, its answer after
a tab. README.md says how to repeat all of it.
"""
import os
import re
import sys

root = os.path.join(os.path.dirname(os.path.abspath(__file__)), "..", "..")
sys.path.insert(0, os.path.join(root, "tests", "rust"))
CEILINGS = [32, 2048, 512, 1048576, 512, 512, 512, 8192, 4096]
OUTPUT = 1000000
# Of the sections that are not by hand, so many calls and the rest of the section with the last of them.
DRAWN = 543
SPECS = {
    "Rattle.storage.specs.Lists.": ["Base", "Map"],
    "Rattle.postcard.specs.": ["Number", "Message", "Decode"],
    "Rattle.time_cache.specs.": ["TimeCache"],
    "Rattle.protocol.specs.": ["State", "Run", "Answer", "Whole", "Links", "Neighbours", "Push", "Gossips", "Ticks", "Screen",
                                     "Control", "Handle", "Calls", "Alike"],
}
CRATE = {"Rattle.storage.specs.Lists.": "storage/specs/Lists", "Rattle.postcard.specs.": "postcard/specs", "Rattle.time_cache.specs.": "time_cache/specs",
         "Rattle.protocol.specs.": "protocol/specs"}


# Sections: a panel, and the calls upon it.

def sections(pairs):
    """Splits (command, answer) pairs at each `new`."""
    out = []
    for command, answer in pairs:
        if command.startswith("new "):
            out.append([])
        out[-1].append((command, answer))
    return out


def read_number(bytes_, at):
    value, shift = 0, 0
    while True:
        byte = bytes_[at]
        value |= (byte & 127) << shift
        at, shift = at + 1, shift + 7
        if byte < 128:
            return value, at


def message_seen(bytes_, at):
    """What a message is, and where it ends."""
    kind, at = read_number(bytes_, at)
    if kind == 0:
        n, at = read_number(bytes_, at + 32)
        delivery, at = read_number(bytes_, at + n)
        if delivery == 1:
            return ("gossip", "neighbors"), at
        _, at = read_number(bytes_, at)
        return ("gossip", "swarm"), at
    if kind == 1:
        return ("prune",), at
    if kind == 2:
        named = bytes_[at]
        _, at = read_number(bytes_, at + 1 + 32 * named)
        return ("graft", named), at
    n, at = read_number(bytes_, at)
    for _ in range(n):
        _, at = read_number(bytes_, at + 32)
    return ("ihave", min(n, 2)), at


def actions_seen(bytes_):
    """The kinds of a call's actions, in order."""
    out, at = [], 0
    while at < len(bytes_):
        kind = bytes_[at]
        if kind == 4:
            at += 33
            out.append(("forgotten",))
            continue
        n, at = read_number(bytes_, at + 1)
        if kind == 1:
            back = bytes_[at]
            what, at = message_seen(bytes_, at + 1)
            out.append(("send", back, what))
        elif kind == 2:
            timer = bytes_[at]
            at += 33 if timer == 0 else 1
            out.append(("schedule", timer))
        else:
            assert kind == 3, kind
            n, at = read_number(bytes_, at)
            at += n
            if bytes_[at] == 0:
                _, at = read_number(bytes_, at + 1)
            else:
                at += 1
            out.append(("emit",))
    return out


def event_seen(bytes_, answer):
    """What an event is; of one that is not read, only its first byte."""
    if answer in ("7", "8", "9") or not bytes_:
        return tuple(min(b, 6) for b in bytes_[:1])
    if bytes_[0] == 0:
        _, at = read_number(bytes_, 1)
        return ("received",) + message_seen(bytes_, at)[0]
    if bytes_[0] == 1:
        return ("broadcast", bytes_[-1])
    if bytes_[0] == 2:
        return ("timer", bytes_[1])
    return ("neighbour", bytes_[0])


def features(section):
    """What the section shows: each event with its answer and the kinds of its actions."""
    out = set()
    for command, answer in section:
        words, said = command.split(), answer.split()
        if words[0] != "ev":
            continue
        event = bytes.fromhex(words[3]) if words[3] != "-" else b""
        number = "0" if said[0] == "ok" else said[1]
        what = event_seen(event, number)
        out.add(("answer", number, what[:2]))
        if number == "0":
            acts = actions_seen(bytes.fromhex(said[1]) if said[1] != "-" else b"")
            kinds = [a[0] if a[0] == "send" else a for a in acts]
            out.add(("actions", what, tuple(k for i, k in enumerate(kinds) if kinds[i - 1:i] != [k])))
            for a in acts:
                out.add(("action", what, a))
    return out


def calls_of(section):
    return sum(1 for c, _ in section if c.startswith("ev "))


def beginnings(section):
    """The section up to each `dump`, without the dumps before."""
    for k, (command, _) in enumerate(section):
        if command == "dump":
            yield [p for p in section[:k] if p[0] != "dump"] + [section[k]]


def always(section):
    """A section that sets the counts or loads a state was written by hand."""
    return any(c.split()[0] in ("stats", "load") for c, _ in section)


def small(section):
    return calls_of(section) <= 60 and all(len(c) + len(a) < 2600 for c, a in section if c.startswith("ev "))


def choose(script, answers, target):
    lines = [l.rstrip("\n") for l in open(script) if l.strip() and not l.startswith("#")]
    said = [l.rstrip("\n") for l in open(answers)]
    assert len(lines) == len(said), (len(lines), len(said))
    whole = sections(zip(lines, said))
    chosen = [list(beginnings(s))[-1] for s in whole if always(s)]
    pool = [b for s in whole if not always(s) for b in beginnings(s) if small(b)]
    shows = [features(s) for s in pool]
    left = set().union(*shows)
    total, calls = len(left), 0
    while left:
        best = max(range(len(pool)), key=lambda i: len(shows[i] & left) / (12 + calls_of(pool[i])))
        left -= shows[best]
        chosen.append(pool[best])
        calls += calls_of(pool[best])
        if calls > DRAWN:
            break
    with open(target, "w") as f:
        for s in chosen:
            for c, a in s:
                f.write(c + "\t" + a + "\n")
    print("%d sections, %d calls, %d of %d features" % (len(chosen), sum(map(calls_of, chosen)), total - len(left), total), file=sys.stderr)


# Sections by hand.

def extra():
    import gen
    panel = "new 1 4094 80 40 5 7 30000 90000 1000"
    x = b"kiln"
    i = gen.blake3(x)

    def ev(now, event, rooms="-"):
        print("ev %d %s %s" % (now, rooms, event.hex()))

    # The counts end at 2^64 - 1: payload, then control.
    print(panel)
    print("stats %d %d 3" % (2**64 - 2, 2**64 - 2))
    ev(0, gen.up(2))
    for _ in range(2):
        ev(1, gen.recv(2, gen.gossip(i, x, 7)))
        ev(2, gen.recv(5, gen.prune()))
    ev(3, gen.broadcast(x))
    print("dump")
    # 256 stand recorded for peer 2, none for peer 3: both hand back a reply and a payload.
    print(panel)
    record = "+".join("%064x:0" % k for k in range(256))
    print("stats 0 0 0")
    print("load me=1 M=4094 cfg=80,40,5,7,30000,90000,1000 init=1 dispatch=0 announce=1 eager=2,3 lazy=- received=- rexp=- "
          "cache=%s@30000/0/%s cexp=30000:%s grafted=- gexp=- missing=- timers=- queue=- dropped=2/%s" % (i.hex(), x.hex(), i.hex(), record))
    ev(5, gen.recv(2, gen.graft(i, 0)), "2:0")
    ev(6, gen.recv(3, gen.graft(i, 0)), "3:0")
    ev(7, gen.broadcast(b"clinker"), "3:0,2:0")
    ev(8, gen.ANNOUNCE)
    print("dump")
    # A late reply to a Graft keeps its sender: the second one is no duplicate.
    print(panel)
    print("stats 0 0 0")
    ev(0, gen.up(2))
    ev(0, gen.up(3))
    ev(1, gen.recv(2, gen.ihave([(i, 3)])))
    ev(81, gen.send_graft(i))
    for p in (3, 2, 2):
        ev(90, gen.recv(p, gen.gossip(i, x, 3)))
    print("dump")
    # The same list twice, second with a padded number in each message: the same answers and states.
    other, lost = gen.blake3(b"clinker"), gen.blake3(b"lost")
    for size in (1, 2):
        print(panel)
        print("stats 0 0 0")
        ev(0, gen.up(2))
        ev(0, gen.up(3))
        for now, p, message in [
                (1, 2, gen.gossip(i, x, 0, hops=size)), (2, 3, gen.gossip(other, b"clinker", 3, length=size)),
                (3, 3, gen.gossip(gen.blake3(b"near"), b"near", None, delivery=size)), (4, 3, gen.gossip(i, x, 0, kind=size)),
                (5, 2, gen.graft(i, 0, hops=size)), (6, 3, gen.graft(other, 4, kind=size)), (7, 2, gen.ihave([(lost, 3), (i, 9)], hops=size)),
                (8, 3, gen.ihave([(lost, 2)], count=size)), (9, 5, gen.prune(size))]:
            ev(now, gen.recv(p, message))
        print("dump")
    # Over M by padding alone; the greatest lengths, and one byte over; a kind is judged at its last byte; an event's own fields are shortest.
    print("new 1 510 80 40 5 7 30000 90000 1000")
    print("stats 0 0 0")
    ev(0, gen.up(2))
    y = b"y" * 473
    for message in [
            gen.gossip(gen.blake3(y), y, 127, hops=2), gen.gossip(gen.blake3(y), y, 127), gen.gossip(i, x, 0, 5, 10, 5, 3), gen.prune(6),
            gen.gossip(i, x, None, delivery=6), gen.gossip(i, x, None, length=11), gen.ihave([], count=11), gen.graft(None, 0, hops=4)]:
        ev(1, gen.recv(2, message))
    for event in ["000284", "00028400", "00028180808001", "00028180808000", "000202008080", "00020200808004", "000202800000", "80000201", "00820001",
                  "038200", "0181004100", "0101418000", "028100"]:
        ev(2, bytes.fromhex(event))
    print("dump")
    quiet(panel, ev)


def quiet(panel, ev):
    """Sections with quiet neighbours, each with what tells lazy from eager."""
    import gen
    x, y = b"kiln", b"clinker"
    i, j = gen.blake3(x), gen.blake3(y)

    def begin(quiet, others, limits=""):
        print(panel)
        print("stats 0 0 0")
        if limits:
            print("limits " + limits)
        for p in quiet:
            ev(0, gen.up_quiet(p))
        for p in others:
            ev(0, gen.up(p))

    # Bytes that are no event of kind 5. The first event is a message. What is broadcast is queued for 2, but for byte 1, which is refused; a Graft is answered and changes
    # nothing else. By kind 3 it is eager, by kind 5 quiet again, and once it is down it is a stranger.
    begin([], [])
    for event in ["05", "058000", "050200", "0602"]:
        ev(0, bytes.fromhex(event))
    ev(0, gen.up_quiet(2))
    ev(0, gen.up(3))
    ev(1, gen.recv(2, gen.prune()))
    ev(2, gen.broadcast(x))
    ev(3, gen.broadcast(b"near", 1))
    ev(7, gen.DISPATCH)
    ev(8, gen.recv(2, gen.graft(i, 0)))
    ev(8, gen.recv(2, gen.graft(j, 0)))
    ev(8, gen.recv(2, gen.graft(None, 0)))
    ev(9, gen.broadcast(y))
    for k, again in enumerate([[gen.up(2)], [gen.up_quiet(2)], [gen.down(2), gen.up(2)], [gen.up_quiet(2)]]):
        for event in again:
            ev(10, event)
        ev(10, gen.broadcast(b"meal %d" % k))
    print("dump")
    # The first announcer is quiet: asked and noted. Its late copy is a duplicate.
    begin([2], [3])
    ev(1, gen.recv(2, gen.ihave([(i, 3)])))
    ev(81, gen.send_graft(i))
    for p in (3, 2):
        ev(90, gen.recv(p, gen.gossip(i, x, 3)))
    print("dump")
    # The first copy is of a quiet one: a late copy of an eager one is a duplicate.
    begin([3], [2])
    ev(1, gen.recv(2, gen.ihave([(i, 3)])))
    ev(81, gen.send_graft(i))
    for p in (3, 2):
        ev(90, gen.recv(p, gen.gossip(i, x, 3)))
    print("dump")
    # The best announcer is quiet: a Graft to it and a Prune, each time.
    begin([2], [3])
    for c, k in [(x, i), (y, j)]:
        ev(1, gen.recv(2, gen.ihave([(k, 0)])))
        ev(2, gen.recv(3, gen.gossip(k, c, 9)))
        ev(3, gen.up(3))
    print("dump")
    # The sender is quiet and not the best announcer: a Prune, and it stays quiet.
    begin([3], [2])
    ev(1, gen.recv(2, gen.ihave([(i, 0)])))
    ev(2, gen.recv(3, gen.gossip(i, x, 9)))
    ev(3, gen.recv(3, gen.gossip(i, x, 9)))
    print("dump")
    # Two neighbours at most: told again they are no more.
    begin([2, 3], [], "2 64 32 8192 16 16 16 64 64 40960")
    for event in [gen.up_quiet(4), gen.up_quiet(2), gen.up(4), gen.down(3), gen.up_quiet(4)]:
        ev(0, event)
    print("dump")
    # What was handed back stays recorded where kind 5 comes; 2 hands back a reply, and what a tick queues. The panel itself is quiet.
    begin([1], [2, 3])
    ev(1, gen.broadcast(x), "2:0")
    ev(2, gen.up_quiet(2))
    ev(3, gen.broadcast(y), "2:0")
    ev(4, gen.recv(2, gen.graft(j, 0)), "2:0")
    ev(8, gen.DISPATCH)
    ev(9, gen.ANNOUNCE)
    ev(9, gen.up_quiet(3))
    ev(10, gen.broadcast(b"meal"))
    print("dump")


# The module.

def seq(items):
    items = list(items)
    return " ∷ ".join(items + ["[]"]) if items else "[]"


def paren(text):
    return "(" + text + ")" if " " in text else text


def bytes_term(hexa):
    return "[]" if hexa in ("-", "") else "(bytes %d 0x%s)" % (len(hexa) // 2, hexa)


def ident(hexa):
    return "0x" + (hexa.lstrip("0") or "0")


def split(text, by=","):
    return [] if text in ("-", "") else text.split(by)


def flag(text):
    return "true" if text == "1" else "false"


def hop(text):
    p, r = text.split(":")
    return "(hop %s %s)" % (p, r)


def expiry(text):
    return seq("(record { time = %s; key = %s })" % (t, ident(i)) for t, i in (x.split(":") for x in split(text)))


def cache(entries, exp):
    return "(record { entries = %s; expiry = %s })" % (seq(entries), expiry(exp))


def timed(key, expires, value):
    return "(entry %s (record { expires = %s; value = %s }))" % (ident(key), expires, value)


def received(text):
    for x in split(text):
        i, e = x.split("@")
        yield timed(i, e, "tt")


def cached(text):
    for x in split(text):
        i, rest = x.split("@")
        e, r, c = rest.split("/")
        yield timed(i, e, "record { content = %s; round = %s }" % (bytes_term(c), r))


def grafted(text):
    for x in split(text):
        i, rest = x.split("@")
        e, first, kept, peers = rest.split("/")
        ps = sorted(tuple(map(int, p.split(":"))) for p in split(peers, "+"))
        yield timed(i, e, "record { first = %s; kept = %s; peers = %s }" % (
            "None" if first == "-" else "Some " + hop(first), "None" if kept == "-" else "Some " + kept,
            seq("(entry %d %d)" % p for p in ps)))


def notes(text):
    """Queue and record: by peer, each in its order."""
    for x in split(text):
        p, rest = x.split("/")
        for y in rest.split("+"):
            i, r = y.split(":")
            yield "(note %s %s %s)" % (p, ident(i), r)


def missing(text):
    for x in split(text):
        i, rest = x.split("/")
        yield "(entry %s %s)" % (ident(i), paren(seq(hop(h) for h in rest.split("+"))))


def state(dump, settings, limits):
    d = dict(w.split("=", 1) for w in dump.split())
    told = split(d.get("quiet", "-"))
    marks = [(p, "eager") for p in split(d["eager"])] + [(p, "quiet" if p in told else "lazy") for p in split(d["lazy"])]
    links = sorted((int(p), mark) for p, mark in marks)
    fields = [
        ("settings", settings), ("limits", limits), ("links", seq("(entry %d %s)" % l for l in links)),
        ("queue", seq(notes(d["queue"]))), ("dropped", seq(notes(d["dropped"]))), ("missing", seq(missing(d["missing"]))),
        ("received", cache(received(d["received"]), d["rexp"])), ("grafted", cache(grafted(d["grafted"]), d["gexp"])),
        ("cache", cache(cached(d["cache"]), d["cexp"])),
        ("timers", "record { graft = %s; dispatch = %s; announce = %s }" % (
            seq(map(ident, split(d["timers"]))), flag(d["dispatch"]), flag(d["announce"]))),
        ("init", flag(d["init"])),
    ]
    return "record {\n" + "".join("    %s = %s;\n" % f for f in fields) + "  }"


def settings_term(words):
    me, m, gt1, gt2, dispatch, threshold, keep, ids, evict = words
    return "(settings %s)" % " ".join([gt1, gt2, dispatch, threshold, keep, ids, evict, m, me])


def contents(hexa):
    """The content of a Gossip or a broadcast, if the event can be read."""
    e = bytes.fromhex(hexa) if hexa != "-" else b""
    try:
        if e[0] == 1:
            n, at = read_number(e, 1)
        elif e[0] == 0:
            _, at = read_number(e, 1)
            kind, at = read_number(e, at)
            if kind != 0:
                return
            n, at = read_number(e, at + 32)
        else:
            return
        if at + n <= len(e):
            yield e[at:at + n]
    except IndexError:
        return


def section_term(number, section, identify):
    words = section[0][0].split()
    settings = settings_term(words[1:])
    limits, output, counts, begin = CEILINGS, OUTPUT, "(counts 0 0 0)", None
    calls, answers, last = [], [], counts
    for (command, answer) in section[1:]:
        w, said = command.split(), answer.split()
        if w[0] == "limits":
            limits, output = list(map(int, w[1:10])), int(w[10])
        elif w[0] == "stats":
            counts = last = "(counts %s)" % " ".join(w[1:])
        elif w[0] == "load":
            begin = command.split(" ", 1)[1]
        elif w[0] == "ev":
            rooms = seq("(room %s %s)" % tuple(x.split(":")) for x in split(w[2]))
            calls.append("call %s %s %s %d" % (w[1], bytes_term(w[3]), paren(rooms), output))
            for c in contents(w[3]):
                identify.setdefault(c.hex(), None)
            if said[0] == "ok":
                answers.append("yes %s" % bytes_term(said[1]))
                last = "(counts %s)" % " ".join(said[2:5])
            else:
                answers.append("no %s" % said[1])
        else:
            assert w[0] == "dump", command
            end = answer
    lim = "(limits %s)" % " ".join(map(str, limits))
    start = "fresh %s %s" % (settings, lim) if begin is None else state(begin, settings, lim)
    return "\n".join([
        "-- %d calls" % len(calls),
        "section%d : Section" % number,
        "section%d = record {" % number,
        "  begin = %s;" % start,
        "  counts = %s;" % counts,
        "  calls = %s;" % ("\n      ∷ ".join(["(%s)" % c for c in calls] + ["[]"])),
        "  answers = %s;" % ("\n      ∷ ".join(["(%s)" % a for a in answers] + ["[]"])),
        "  end = %s;" % state(end, settings, lim),
        "  end_counts = %s;" % last,
        "}",
    ])


def unfoldings():
    for prefix, mods in SPECS.items():
        for m in mods:
            text = open("%s/crates/%s/%s.antt" % (root, CRATE[prefix], m)).read()
            passed_on = re.findall(r"^unfoldable pub use \S+\.\{(.*)\}", text, re.M)
            for name in re.findall(r"^\s*unfoldable pub (\S+) :", text, re.M) + ", ".join(passed_on).split(", "):
                if name:
                    yield "%s.%s" % (m, name)


PRELUDE = """-- The Rust's answers to lists of calls, which the definitions give too: outputs, answer numbers, states and counts. Written by tests/definitions/sample.py from calls.txt beside it.
use Rattle.std.proofs.Common.{ℕ, ◌≡◌, Bool, true, false, ◌&&◌, if◌then◌else◌, List, [], ◌∷◌, map, eqb, Some, None, refl}
use Rattle.std.proofs.Math.ListN.{replicate}
%s
use Rattle.storage.specs.Lists.Map.{entry}
use Rattle.postcard.specs.Number.{big_endian}
use Rattle.protocol.specs.Links.{eager, lazy, quiet}
use Rattle.protocol.specs.State.{State, Settings, Limits, Counts, Hop, Note, fresh}
use Rattle.protocol.specs.Run.{Room}
use Rattle.protocol.specs.Answer.{Call, Answer, refuse, accept}
use Rattle.protocol.specs.Calls.{Ran, run_calls}
use Rattle.protocol.specs.Alike.{same_list, alike}

-- the bytes of a number, the first highest
abbrev bytes : ℕ → ℕ → List ℕ
bytes n x = big_endian n x

abbrev settings : ℕ → ℕ → ℕ → ℕ → ℕ → ℕ → ℕ → ℕ → ℕ → Settings
settings a b c d e f g m me = record {
  graft_timeout_1 = a;
  graft_timeout_2 = b;
  dispatch_timeout = c;
  optimization_threshold = d;
  message_cache_retention = e;
  message_id_retention = f;
  cache_evict_interval = g;
  max_message_size = m;
  me = me;
}

abbrev limits : ℕ → ℕ → ℕ → ℕ → ℕ → ℕ → ℕ → ℕ → ℕ → Limits
limits n r c b g s t q d = record { N = n; R = r; C = c; B = b; G = g; S = s; T = t; Q = q; D = d }

abbrev counts : ℕ → ℕ → ℕ → Counts
counts p c h = record { payload = p; control = c; hops = h }

abbrev hop : ℕ → ℕ → Hop
hop p r = record { peer = p; round = r }

abbrev note : ℕ → ℕ → ℕ → Note
note p i r = record { peer = p; id = i; round = r }

abbrev room : ℕ → ℕ → Room
room p n = record { peer = p; room = n }

abbrev call : ℕ → List ℕ → List Room → ℕ → Call
call now event rooms output = record { now = now; event = event; rooms = rooms; output = output }

-- what a call answered: a number, or 0 and these bytes, without the actions 4, which the Rust has not
data Said : Type 0 where
  no : ℕ → Said
  yes : List ℕ → Said

abbrev said : Answer → Said
said (refuse n) = no n
said (accept e r) = yes (Base.concat_map Message.action_bytes (Screen.struck r.actions))

abbrev same_said : Said → Said → Bool
same_said (no m) (no n) = eqb m n
same_said (no m) (yes b) = false
same_said (yes a) (no n) = false
same_said (yes a) (yes b) = same_list eqb a b

abbrev same_counts : Counts → Counts → Bool
same_counts a b = eqb a.payload b.payload && eqb a.control b.control && eqb a.hops b.hops

-- a panel, calls upon it, and what the Rust made of them
record Section : Type 0 where
  begin : State
  counts : Counts
  calls : List Call
  answers : List Said
  end : State
  end_counts : Counts

-- a content and its identifier
record Named : Type 0 where
  content : List ℕ
  id : ℕ

-- the identifier of a content of the sample, as BLAKE3 gives it
named : List Named → List ℕ → ℕ
named [] content = 0
named (n ∷ ns) content = if same_list eqb n.content content then n.id else named ns content

-- answers, state and counts agree
abbrev compare : Ran → Section → List Bool
compare r x = same_list same_said (map said r.answers) x.answers ∷ alike r.state x.end ∷ same_counts r.counts x.end_counts ∷ []

"""


def module(calls):
    from b3 import blake3
    pairs = [l.rstrip("\n").split("\t") for l in open(calls)]
    identify = {}
    terms = [section_term(i + 1, s, identify) for i, s in enumerate(sections(pairs))]
    table = "\n    ∷ ".join(["record { content = %s; id = 0x%s }" % (bytes_term(c).strip("()") if c else "[]", blake3(bytes.fromhex(c)).hex())
                             for c in identify] + ["[]"])
    uses = "\n".join("use %s%s as %s" % (p, m, m) for p, mods in SPECS.items() for m in mods)
    out = [PRELUDE % uses]
    out.append("names : List Named\nnames =\n    %s\n\nhash : List ℕ → ℕ\nhash content = named names content\n\n" % table)
    out.append("\n\n".join(terms))
    out.append("""

agrees : Section → List Bool
agrees x = compare (run_calls hash x.begin x.counts x.calls) x
""")
    # The checker bounds the steps of one theorem.
    groups, calls = [[]], 0
    for i, section in enumerate(sections(pairs)):
        if calls + calls_of(section) > 200:
            groups.append([])
            calls = 0
        groups[-1].append("section%d" % (i + 1))
        calls += calls_of(section)
    for k, names in enumerate(groups):
        out.append("""
rust-sample-%d : map agrees (%s) ≡ replicate %d (true ∷ true ∷ true ∷ [])
unfolding agrees hash names named %s %s
rust-sample-%d = refl
""" % (k + 1, seq(names), len(names), " ".join(names), " ".join(unfoldings()), k + 1))
    sys.stdout.write("".join(out))


def replay(calls, program):
    import subprocess
    pairs = [l.rstrip("\n").split("\t") for l in open(calls)]
    said = subprocess.run([program], input="".join(c + "\n" for c, _ in pairs), capture_output=True, text=True, check=True).stdout.splitlines()
    wrong = [k for k, (_, a) in enumerate(pairs) if said[k:k + 1] != [a]]
    if wrong or len(said) != len(pairs):
        sys.exit("%d answers of %d differ, the first at line %d" % (len(wrong), len(pairs), wrong[0] + 1 if wrong else len(pairs)))
    print("%d answers of the Rust are as stored" % len(pairs))


def main():
    if sys.argv[1:] == ["extra"]:
        extra()
    elif sys.argv[1:2] == ["choose"] and len(sys.argv) == 5:
        choose(*sys.argv[2:])
    elif sys.argv[1:2] == ["module"] and len(sys.argv) == 3:
        module(sys.argv[2])
    elif sys.argv[1:2] == ["replay"] and len(sys.argv) == 4:
        replay(*sys.argv[2:])
    else:
        sys.exit(__doc__)


if __name__ == "__main__":
    main()
