#!/usr/bin/env python3
# tools/believe.py held against a reading, against README's numbers and against the kit. Usage, from the repository's top: tests/believe/test.py
import glob, os, re, shutil, subprocess, sys, tempfile

sys.dont_write_bytecode = True
sys.path.insert(0, "tools")
import believe

# By reading: what must be among them, and what must not (it exists, and serves proofs or functions inside the library).
IN = """
storage.Lists.Map.insert storage.Rows.Digits.le_nat postcard.Number.◌then◌ postcard.Decode.decode_event postcard.Sizes.per_message postcard.Told.Leaves postcard.Rewrite.rewrite postcard.src.units.Round
time_cache.TimeCache.expire_until blake3.Blake3.compressed protocol.State.create protocol.Whole.whole_state protocol.Gossips.optimize_tree protocol.Answer.answer_block
protocol.NoNeighbourPassedOver.met_full protocol.Alike.same_notes protocol.Panel.panelrun block.src.head.Config block.Header.head_in block.View.state_of whole.Held.held whole.States.Kept.keep whole.States.Area.area_holds whole.States.Calls.Saves machine.Called.Finds
machine.Called.call_of plumtree.Calls.Made plumtree.Calls.entries plumtree.lib.plumtree_alike panel.Writing.AppendsFront panel.Answering.WritesFront
protocol.NoNeighbourPassedOver.NoNeighbourPassedOver protocol.AlikeUnordered.same_bag plumtree.CallList.LeadsTo plumtree.Histories.History.Step protocol.laws.no_neighbour_passed_over postcard.Rewrite.ShortestForm whole.States.Area.LeftBy
"""
OUT = """
storage.Rows.Part.Only storage.Rows.Sorted.Ascending storage.Refs.Once.Numbers postcard.Output.FitsAt wire.Reader.Gives.Decodes
decide.Settled.settled alike.NoteTable.NextOf block.Becomes.Becomes block.Sound.Sound whole.States.Calls.Placed protocol.AlikeCalls.Peerwise.Like block.Panels.AtRest machine.Kinds.Meaning.peer_of machine.Core.Begins machine.Core.core_rooms
machine.Decided.decided machine.Steps.Asked plumtree.Rooms.RoomsFound plumtree.Peers.Reaches panel.Records.Reading.Whole
"""

# The laws that tell numbers of the code.
NUMBERS = "protocol.laws.numbers_are_the_specifications blake3.laws.word_order_is_the_specifications"


def by_reading(world, found):
    for key in IN.split():
        if key not in found:
            sys.exit(f"{key} has to be believed and is not told")
    for key in OUT.split():
        believe.named(world, key)
        if key in found:
            sys.exit(f"{key} is told and has not to be believed")


def readme(found):
    told = re.match(r"\d+ definitions, [\d,]+ lines", believe.count(found))[0]
    if told not in open("README.md").read():
        sys.exit(f"README.md has to say: {told}")


# README's list of the main theorems is that of the functions of `laws`.
def theorems_listed(world):
    here = {believe.told(d) for d in believe.theorems(world)}
    listed = set(re.findall(r"^\| `(\w+::laws::\w+)` \|", open("README.md").read(), re.M))
    if here != listed:
        sys.exit(f"README.md's list of main theorems: missing {sorted(here - listed)}, too many {sorted(listed - here)}")


# docs/PROOFS.md names each main theorem by its function, `protocol`'s without its crate; docs/GUARANTEE.md names none that is not there; and every other name in their backquotes stands in the crates.
def claims_held(world):
    here = {believe.told(d) for d in believe.theorems(world)}
    words = {*world.crates, "check_invariants"}  # the second is the Rust's
    for path in glob.glob("crates/*/*/**/*", recursive=True):
        if path.endswith((".antt", ".rt", ".edit")) and "/out/" not in path:
            words |= set(re.findall(r"[\w'-]+", open(path, encoding="utf-8").read() + os.path.basename(path)))
    for page in ("docs/PROOFS.md", "docs/GUARANTEE.md"):
        text = open(page, encoding="utf-8").read()
        named = {f"{crate or 'protocol'}::laws::{name}" for crate, name in re.findall(r"`(?:(\w+)::)?laws::(\w+)`", text)}
        if named - here or page == "docs/PROOFS.md" and here - named:
            sys.exit(f"{page}: no theorems are {sorted(named - here)}; not named: {sorted(here - named)}")
        lost = {n for n in re.findall(r"`([\w'.:-]*\w)`", text) if re.split(r"[.:]", n)[-1].removesuffix("_spec") not in words | {""} and not re.search(r"(^|_)X(_|$)", n)}
        if lost:
            sys.exit(f"{page} names what stands nowhere: {sorted(lost)}")


# A number that definitions read from the code is told by a law in the specification's words.
def numbers_told(world, found):
    told = believe.closure(world, [believe.named(world, k) for k in NUMBERS.split()])
    read = {d.key() for d in found.values() if d.kind == "type" and " const " in d.lines[d.above]}
    if read - set(told):
        sys.exit(f"no law tells these numbers of the code: {sorted(read - set(told))}")


# The definitions alone, as a repository of their own: the kit takes them, so nothing that they rest on is left out.
def alone(world, found, top):
    crates = [c for c, _ in believe.ordered(world, found)]
    with open(f"{top}/crates.txt", "w") as listed:
        listed.writelines(f"{c}: {' '.join(n for n in world.crates[c] if n in crates)}\n" for c in crates)
    for crate, own in believe.ordered(world, found):
        specs, src = f"{top}/crates/{crate}/specs", f"{top}/crates/{crate}/src"
        os.makedirs(specs)
        os.makedirs(src)
        types = {}
        for d in own:
            if d.kind == "type":
                types.setdefault(d.file.removeprefix("src."), []).append(d)
        with open(f"{src}/lib.rt", "w") as lib:
            lib.writelines(f"pub mod {m};\n" for m in types if m != "lib")
        for module, ds in types.items():
            with open(f"{src}/{module}.rt", "a") as out:
                out.write(code(world.source(crate, module), ds))
        files = [f for f in world.modules(crate) if any(d.file == f for d in own)]
        # a file in a folder is declared by the file of the folder's name
        folders = {f[: f.rindex(".")] for f in files if "." in f}
        for folder in ["", *sorted(folders)]:
            own_path = f"{specs}/{folder.replace('.', '/') or 'Lib'}.antt"
            within = [f for f in dict.fromkeys([*files, *sorted(folders)]) if f.rpartition(".")[0] == folder]
            os.makedirs(f"{specs}/{folder.replace('.', '/')}", exist_ok=True)
            with open(own_path, "w") as lib:
                lib.writelines(f"pub mod {f.rpartition('.')[2]}\n" for f in within)
        for f in files:
            with open(f"{specs}/{f.replace('.', '/')}.antt", "w") as out:
                out.write(definitions(world, found, world.file(crate, f)))


# Some types of a file of code, with the `use` lines that they need. A field's name is none that is used.
def code(source, types):
    text = "\n\n".join("\n".join(d.lines) for d in types) + "\n"
    uses = "".join(f"use {'::'.join([*where, n])};\n" for n, where in source.uses.items() if re.search(rf"\b{n}\b(?!: )", text))
    return uses + text


# The definitions of a file that are told, with the `use` lines that they need.
def definitions(world, found, file):
    told = [d for d in file.definitions if d.key() in found]
    lines, module = [], None
    for line in open(file.path, encoding="utf-8").read().splitlines():
        own = re.fullmatch(r"(.*use (Rattle\S+?)\.\{)(.*)\}", line)
        other = re.fullmatch(r"use Rattle\S+ as (\S+)", line)
        if own:
            kit = own[2].startswith(believe.KIT)
            kept = [i for i in own[3].split(", ") if kit or world.find(own[2], i.split(" as ")[0]) in found.values()]
            lines += [own[1] + ", ".join(kept) + "}"] if kept else []
        elif other:
            lines += [line] if any(other[1] + "." in l for d in told for l in d.lines) else []
        elif re.match(r"use ", line):
            lines.append(line)
    for d in told:
        lines += ["", d.module] if d.module and d.module != module else [""]
        lines += [d.fixity] * bool(d.fixity) + d.lines
        module = d.module
    return "\n".join(lines) + "\n"


def taken_by_the_kit(world, found):
    with tempfile.TemporaryDirectory() as top:
        alone(world, found, top)
        said = subprocess.run(["rt", "all", "check"], cwd=top, stdout=subprocess.PIPE, stderr=subprocess.STDOUT, text=True)
        if said.returncode:
            sys.exit(said.stdout + "the definitions that tools/believe.py tells do not stand alone")
        return said.stdout.splitlines()[-1]


# A name that is nowhere is told, and the command fails.
def fails():
    with tempfile.TemporaryDirectory() as top:
        for part in ("crates.txt", "tools", "crates"):
            copy = shutil.copytree if os.path.isdir(part) else shutil.copy
            copy(part, f"{top}/{part}")
        path = f"{top}/crates/protocol/specs/State.antt"
        text = open(path, encoding="utf-8").read()
        open(path, "w", encoding="utf-8").write(text.replace("leb 510", "least 510"))
        said = subprocess.run([sys.executable, f"{top}/tools/believe.py", "--count"], stdout=subprocess.DEVNULL, stderr=subprocess.PIPE, text=True)
        if said.returncode != 1 or "protocol.State.size_in_range: the name least cannot be told" not in said.stderr:
            sys.exit("tools/believe.py does not tell a name that is nowhere")


def main():
    world = believe.World()
    found = believe.believed(world)
    if believe.problems:
        sys.exit("\n".join(believe.problems))
    by_reading(world, found)
    readme(found)
    theorems_listed(world)
    claims_held(world)
    numbers_told(world, found)
    fails()
    said = taken_by_the_kit(world, found)
    print(f"tests/believe: {believe.count(found)}; alone: {said}")


main()
