#!/usr/bin/env python3
# What a reader has to believe: the definitions that the contracts of the exported functions (crates/plumtree/src/lib.rt) and the main theorems (the contracts in crates/*/src/laws.rt)
# and the program's (`panel::stream::run`) rest on, each with its sentence, crate by crate from the lowest up; then what they assume of the kit, and their number.
# Usage, from anywhere: tools/believe.py [--list | --count | --theorems] [NAME ...]
#   --list    names and places alone
#   --theorems  the main theorems' functions alone, as CRATE::laws::NAME
#   --count   the numbers alone
#   NAME      starts from these definitions (CRATE.FILE.NAME, as machine.Called.Called) or contracts (as plumtree.lib.plumtree_event) instead
# It fails where a name cannot be told, since it would then leave something out. tests/believe holds it against the kit.
import os, re, signal, sys

TOP = os.path.dirname(os.path.dirname(os.path.abspath(__file__)))
CONTRACTS = ("plumtree", "lib")
LAWS = "laws"
PROGRAM = ("panel", "stream", "run")
KIT = "Rattle.std."
# Words of the logic and of contracts; fields of a lent value; types of the code; and the constructors of the kit's libraries: on the left of a clause any other plain name is a variable.
WORDS = set("Type Unit tt ⊥ → : = ; , in × _".split())
KIT_FIELDS = {"now", "old", "new"}
PRIMITIVE = set("u8 u16 u32 u64 usize bool".split())
KIT_CONSTRUCTORS = set("true false none some [] ∷ zero suc refl".split())
HEAD = r"(?:(?:unfoldable|abbrev) )?pub (?:(record|data) )?(\S+)"

problems = []


# A definition, a type of the code or a contract: its lines from its comment on, `above` of them comments and attributes, the first being line `first` of its file.
class Definition:
    def __init__(self, crate, file, path, name, kind, lines, first, above):
        self.crate, self.file, self.path, self.name, self.kind = crate, file, path, name, kind
        self.lines, self.first, self.above = lines, first, above
        self.indent, self.module, self.bound, self.fixity = 0, None, set(), None  # the module around it, and its parameters
        self.fields, self.constructors = [], []
        self.refs, self.projected, self.kit = [], set(), set()
        self.parameters = set()  # of a contract or a trait: the type parameters, whose members the bounds' traits have

    def key(self):
        return f"{self.crate}.{self.file}.{self.name}"

    def code(self):
        return [l for l in self.lines if not re.match(r"\s*(--|//)", l)]


def indented(line):
    return len(line) - len(line.lstrip())


def tokens(text):
    return re.findall(r"[(){};,]|[^\s(){};,]+", text)


def closing(ts, i):
    depth = 0
    for j in range(i, len(ts)):
        depth += (ts[j] in "({") - (ts[j] in ")}")
        if depth == 0:
            return j
    raise ValueError("a bracket is not closed: " + " ".join(ts[i : i + 12]))


def plain(t):
    return re.fullmatch(r"[^\W\d][\w'-]*|«\w+»|_", t) is not None


# The names of a group `(x y : A)`; nothing if it is another group.
def binders(inner):
    names = inner[: inner.index(":")] if ":" in inner else []
    return names if all(plain(n) for n in names) else []


# Lines joined with the more indented ones that follow them, comments left out.
def joined(lines, indent):
    groups = []
    for line in filter(str.strip, (re.sub(r"(^|\s)--(\s.*)?$", "", l) for l in lines)):
        if groups and (indented(line) > indent or line.lstrip()[0] in ")}"):
            groups[-1] += " " + line.strip()
        else:
            groups.append(line.strip())
    return groups


# ---- files of definitions


# A file of definitions: they in order, by name (constructors too), and what its `use` lines name.
class File:
    def __init__(self, crate, name, path):
        self.crate, self.name, self.path = crate, name, path
        self.definitions, self.names, self.imports, self.modules, self.header, self.fixities = [], {}, {}, {}, None, {}
        self.read(open(path, encoding="utf-8").read().splitlines())
        for d in self.definitions:
            self.members(d)
            d.fixity = self.fixities.get(d.name)
            for n in [d.name] + d.constructors:
                if n in self.names:
                    problems.append(f"{path}: {n} is defined twice")
                self.names[n] = d

    def use(self, text):
        m = re.fullmatch(r"(?:ghost )?use (\S+?)\.\{(.*)\};?", text)
        other = re.fullmatch(r"(?:ghost )?use (\S+) as (\S+?);?", text)
        for item in filter(None, map(str.strip, m[2].split(","))) if m else []:
            name, _, own = item.partition(" as ")
            self.imports[own or name] = (m[1], name)
        if other:
            self.modules[other[2]] = other[1]
        if not m and not other:
            problems.append(f"{self.path}: not understood: {text}")

    def read(self, lines):
        above, current, module = [], None, None
        for n, line in enumerate(lines, 1):
            text, indent = line.strip(), indented(line)
            if text and current and (indent > current.indent or indent == current.indent and not re.match(r"--|infix|module |use |" + HEAD, text)):
                current.lines.append(line)
                continue
            current = None
            if not text:
                above = []
            elif text.startswith("--"):
                above.append(line)
            elif text.startswith("infix"):
                self.fixities[text.split()[-1]], above = line, []
            elif text.startswith("module _ "):
                module, above = line, []
            elif re.match(r"(unfoldable pub |pub )?use ", text):
                self.header = above if self.header is None else self.header
                self.use(text[text.index("use ") :])
                above = []
            elif m := re.match(HEAD, text):
                module = module if indent else None
                current = Definition(self.crate, self.name, self.path, m[2], m[1] or "function", above + [line], n - len(above), len(above))
                current.indent, current.module = indent, module
                self.definitions.append(current)
                above = []
            else:
                problems.append(f"{self.path}:{n}: not understood: {text}")

    # The fields of a record, the constructors of a type.
    def members(self, d):
        for line in d.lines[d.above + 1 :] if d.kind != "function" else []:
            if indented(line) == d.indent + 2 and not line.strip().startswith("--"):
                names = line.strip().split(" : ")[0].split()
                d.fields += names[1:] if d.kind == "record" else []
                d.constructors += names if d.kind == "data" else []


# ---- the names in a definition


class Names:
    def __init__(self, world, file, definition):
        self.world, self.file, self.d = world, file, definition
        self.parts = {}  # of a mixfix name: which name, which of its parts, of how many
        for n in [*file.imports, *file.names]:
            parts = [p for p in n.split("◌") if p] if "◌" in n else []
            for k, p in enumerate(parts):
                self.parts.setdefault(p, []).append((n, k, len(parts)))

    def missing(self, t):
        problems.append(f"{self.d.key()}: the name {t} cannot be told")

    def resolved(self, t):
        alias, dot, rest = t.partition(".")
        if t in self.file.names:
            return self.file.names[t]
        if t in self.file.imports:
            return self.world.find(*self.file.imports[t])
        return self.world.find(self.file.modules[alias], rest) if dot and alias in self.file.modules else None

    # The mixfix name that a part belongs to: one whose earlier parts stand open here, or else one that it begins.
    def operator(self, t, opened):
        for i in range(len(opened) - 1, -1, -1):
            if opened[i] in self.parts[t]:
                n, k, size = opened[i]
                opened[i : i + 1] = [(n, k + 1, size)] if k + 1 < size else []
                return n
        for n, k, size in self.parts[t]:
            if k == 0:
                opened += [(n, 1, size)] if size > 1 else []
                return n

    def name(self, t, bound, opened):
        if t in bound or t in WORDS or re.fullmatch(r"\d+|0x[0-9A-Fa-f]+", t):
            return
        first, *fields = t.split(".")
        if fields and first in self.d.parameters:
            return
        if fields and first not in self.file.modules:
            self.d.projected.update(fields)
            return self.name(first, bound, opened) if first else None
        n = self.operator(t, opened) if t in self.parts else t
        found = self.resolved(n) if n else None
        if found is None:
            self.missing(t)
        elif isinstance(found, str):
            self.d.kit.add(found)
        elif found is not self.d:
            self.d.refs.append(found)

    # The fields of `record { f = e; .. }`.
    def fields(self, ts, bound):
        while ts:
            end, depth = 0, 0
            while end < len(ts) and (ts[end] != ";" or depth):
                depth += (ts[end] in "({") - (ts[end] in ")}")
                end += 1
            if ts[1:2] != ["="]:
                self.missing(" ".join(ts[:end]))
            self.d.projected.add(ts[0])
            self.walk(ts[2:end], bound)
            ts = ts[end + 1 :]

    # An expression or a type: the scope of a bound name ends with the brackets around it.
    def walk(self, ts, bound):
        bound, opened, i = set(bound), [], 0
        while i < len(ts):
            t = ts[i]
            if t in "({":
                j = closing(ts, i)
                inner = ts[i + 1 : j]
                names = binders(inner)
                if i and ts[i - 1] == "record":
                    self.fields(inner, bound)
                else:
                    self.walk(inner[len(names) + 1 :] if names else inner, bound)
                    bound |= set(names)
                i = j
            elif t == "λ":
                while not ts[i].endswith("."):
                    i += 1
                    bound.add(ts[i].rstrip("."))
            elif t == "let":
                i += 1
                bound.add(ts[i])
            elif t != "record":
                self.name(t, bound, opened)
            i += 1

    def constructor(self, t):
        found = self.resolved(t)
        return t in KIT_CONSTRUCTORS or isinstance(found, Definition) and t.split(".")[-1] in found.constructors

    # A clause: on its left, beside the name itself, constructors and variables.
    def clause(self, ts, bound):
        k = ts.index("=")
        own = [p for p in self.d.name.split("◌") if p]
        bound = set(bound)
        for t in ts[:k]:
            if self.constructor(t) or t in self.parts and not plain(t) and t not in own:
                self.name(t, set(), [])
            elif plain(t) and t not in own:
                bound.add(t)
            elif t not in own and not re.fullmatch(r"[(){}]|\d+", t):
                self.missing(t)
        if not set(own) <= set(ts[:k]):
            self.missing(" ".join(ts[:k]))
        self.walk(ts[k + 1 :], bound)

    # The head of a definition: its parameters, which are told, and its type.
    def head(self, text, bound):
        ts, bound, i = tokens(re.sub("^" + HEAD, "", text)), set(bound), 0
        while ts[i] != ":":
            j = closing(ts, i)
            inner = ts[i + 1 : j]
            if ":" in inner:
                self.walk(inner[len(binders(inner)) + 1 :], bound)
            bound |= set(binders(inner) or inner)
            i = j + 1
        self.walk([t for t in ts[i + 1 :] if t != "where"], bound)
        return bound


# What a definition refers to.
def explain(world, d):
    names = Names(world, world.file(d.crate, d.file), d)
    module = tokens(d.module or "")
    bound = {n for i, t in enumerate(module) if t in "({" for n in binders(module[i + 1 : closing(module, i)])}
    if d.kind == "function":
        first, *clauses = joined(d.lines[d.above :], d.indent)
        bound = names.head(first, bound)
        for clause in clauses:
            names.clause(tokens(clause), bound)
        return
    bound = names.head(d.lines[d.above].strip(), bound)
    members = joined(d.lines[d.above + 1 :], d.indent + 2)
    for member in members:
        told, _, type_ = member.partition(" : ")
        names.walk(tokens(type_), bound)
        bound |= set(told.split()[1:]) if d.kind == "record" else set()


# ---- types, constants and contracts in the code


class Source(File):
    def __init__(self, crate, name, path):
        self.crate, self.name, self.path = crate, name, path
        self.names, self.imports, self.modules, self.uses = {}, {}, {}, {}
        self.lines = open(path, encoding="utf-8").read().splitlines()
        for line in self.lines:
            if line.startswith("ghost use "):
                self.use(line)
            elif line.startswith("use "):
                *where, names = re.sub(r"[{} ]", "", line[4:].rstrip(";")).split("::")
                self.uses.update({name: where for name in names.split(",")})

    # From the comment above the line that the pattern finds, to the line before one that `last` finds, or of a type with it.
    def declared(self, pattern, last, kind, name):
        start = next((n for n, l in enumerate(self.lines) if re.match(pattern, l)), None)
        if start is None:
            return None
        top, end = start, start
        while top and re.match(r"//|#\[", self.lines[top - 1]):
            top -= 1
        while not re.search(last, self.lines[end]):
            end += 1
        file = f"src.{self.name}" if kind == "type" else self.name
        return Definition(self.crate, file, self.path, name, kind, self.lines[top : end + (kind == "type")], top + 1, start - top)

    def type_named(self, world, name):
        d = self.declared(rf"pub (struct|enum) {name}\b", r"^}|;$", "type", name)
        if d:
            text = " ".join(l.split("//")[0] for l in d.lines[d.above :])
            d.fields = re.findall(r"(\w+):", text) + [str(n) for n, _ in enumerate(re.findall(r"[(,] *pub ", text))]
            if " enum " in text:
                d.constructors = [m[1] for l in d.lines[d.above + 1 :] if (m := re.match(r"    (\w+)", l))]
            words = re.findall(r"\b[A-Z]\w*", re.sub(r"\w+:", "", text.split(name, 1)[1]))
            self.types(world, d, [w for w in words if w not in d.constructors])
        return d

    # A constant is told with the types: its type and its value.
    def constant_named(self, world, name):
        d = self.declared(rf"pub const {name}\b", r";$", "type", name)
        if d:
            self.types(world, d, re.findall(r"\b[A-Z]\w*", d.lines[d.above].split("=")[0].split(":", 1)[1]))
        return d

    def types(self, world, d, words):
        for w in dict.fromkeys(words):
            crate, *where = self.uses.get(w, ["crate", *self.name.split("/")])
            found = world.type_at(self.crate if crate == "crate" else crate, where, w)
            if found:
                d.refs.append(found)
            else:
                problems.append(f"{d.key()}: the type {w} cannot be told")

    # A type or trait of the kit, by the `use` line of its name or of its module.
    def of_kit(self, path):
        first = path.split("::")[0]
        return self.uses.get(first, [first])[0] == "std"

    # What the clauses name; `words`: the types and traits of the signature.
    def promises(self, world, d, words, clauses, bound):
        self.types(world, d, [w for w in words if w not in PRIMITIVE | {"mut"} | d.parameters and not self.of_kit(w)])
        for promise in clauses:
            ts = tokens(promise)
            Names(world, self, d).walk(ts[1 : closing(ts, 0)], ["result", *bound])

    def contract(self, world, name):
        d = self.declared(rf'pub (extern "C" )?fn {name}[(<]', r"^{", "contract", name)
        head, *clauses = re.split(r"^ *ensures (?:\w+ )?(?={)", "\n".join(d.code()), flags=re.M)
        bounds, signature = re.match(r"(?:<(.*?)>)?\((.*)", " ".join(head.split()).split(f"fn {name}", 1)[1]).groups()
        bounds = re.findall(r"(\w+): ([\w:]+)", bounds or "")
        d.parameters = {p for p, _ in bounds}
        types = re.findall(r"[\w:]+", re.sub(r"\w+: ", "", signature))
        self.promises(world, d, types + [t for _, t in bounds], clauses, re.findall(r"(\w+): ", signature))
        return d

    # A trait of the repository, whose members a contract names: with the clauses of its methods.
    def trait_named(self, world, name):
        d = self.declared(rf"pub trait {name}\b", r"^}", "trait", name)
        if d:
            d.lines.append("}")
            text = "\n".join(d.code())
            above, *clauses = re.split(r"^ *ensures (?:\w+ )?(?={)", text, flags=re.M)
            d.parameters = {"Self"}
            self.promises(world, d, re.findall(r"\w+", d.lines[d.above].partition(":")[2]), clauses, ["self", *re.findall(r"ghost (\w+)", text), *re.findall(r"(\w+): &", text)])
        return d


# ---- the repository


class World:
    def __init__(self):
        self.files, self.sources, self.types = {}, {}, {}
        listed = (line.partition(":") for line in open(f"{TOP}/crates.txt") if not line.startswith("#"))
        self.crates = {name: needs.split() for name, colon, needs in listed if colon}

    # From the lowest up: each crate behind those that it names.
    def order(self):
        found = []

        def visit(crate):
            if crate in self.crates and crate not in found:
                for need in self.crates[crate]:
                    visit(need)
                found.append(crate)

        for crate in self.crates:
            visit(crate)
        return found

    def modules(self, crate):
        def inside(path, folder):
            found = []
            for name in re.findall(r"^pub mod (\w+)", open(path).read(), re.M) if os.path.exists(path) else []:
                own = f"{TOP}/crates/{crate}/specs/{folder}{name}"
                found += [f"{folder}{name}".replace("/", ".")] + (inside(f"{own}.antt", f"{folder}{name}/") if os.path.isdir(own) else [])
            return found

        return inside(f"{TOP}/crates/{crate}/specs/Lib.antt", "")

    def file(self, crate, name):
        path = f"{TOP}/crates/{crate}/specs/{name.replace('.', '/')}.antt"
        if (crate, name) not in self.files:
            self.files[crate, name] = File(crate, name, path) if os.path.exists(path) else None
        return self.files[crate, name]

    def source(self, crate, name):
        path = f"{TOP}/crates/{crate}/src/{name}.rt"
        path = path if os.path.exists(path) else f"{TOP}/crates/{crate}/src/{name}/mod.rt"
        if (crate, name) not in self.sources:
            self.sources[crate, name] = Source(crate, name, path) if os.path.exists(path) else None
        return self.sources[crate, name]

    def type_at(self, crate, where, name, constant=False):
        file = "/".join(where) or "lib"
        if (crate, file, name) not in self.types:
            source = self.source(crate, file)
            told = source and ([source.constant_named] if constant else [source.type_named, source.trait_named])
            self.types[crate, file, name] = told and next(filter(None, (t(self, name) for t in told)), None)
        return self.types[crate, file, name]

    # What a name of a module stands for: a definition, a name of the kit (a text), or nothing.
    def find(self, module, name):
        if module.startswith(KIT):
            return f"{module}.{name}"
        m = re.fullmatch(r"Rattle\.(\w+)\.specs\.(declared\.)?(.+)", module)
        if not m:
            return None
        if m[2]:
            *where, own = m[3].removesuffix(".TheVariants").split(".")
            if own == "TheConstants":
                return self.type_at(m[1], where, name, constant=True)
            found = self.type_at(m[1], where, own)
            return found if found and name in [own, *found.constructors] else None
        file = self.file(m[1], m[3])
        if file and name in file.names:
            return file.names[name]
        return self.find(*file.imports[name]) if file and name in file.imports else None


def exported(world):
    source = world.source(*CONTRACTS)
    return [source.contract(world, n) for n in re.findall(r'^pub extern "C" fn (\w+)\(', "\n".join(source.lines), re.M)]


# The main theorems: each is the contract of a function of its crate's `laws`.
def theorems(world):
    sources = [source for crate in world.order() if (source := world.source(crate, LAWS))]
    return [source.contract(world, n) for source in sources for n in re.findall(r"^pub fn (\w+)\(\)", "\n".join(source.lines), re.M)]


# The program's contract.
def program(world):
    crate, file, name = PROGRAM
    return world.source(crate, file).contract(world, name)


def told(theorem):
    return f"{theorem.crate}::{theorem.file}::{theorem.name}"


def named(world, key):
    crate, *file, name = key.split(".")
    file = ".".join(file)
    if file in (CONTRACTS[1], LAWS, PROGRAM[1]) and world.source(crate, file):
        return world.source(crate, file).contract(world, name)
    found = world.file(crate, file)
    if not found or name not in found.names:
        sys.exit(f"there is no definition {key}")
    return found.names[name]


# The roots, and everything that they rest on.
def closure(world, roots):
    found, todo = {}, list(roots)
    while todo:
        d = todo.pop()
        if d.key() not in found:
            found[d.key()] = d
            if d.kind in ("function", "record", "data"):
                explain(world, d)
            todo += d.refs
    fields = KIT_FIELDS | {f for d in found.values() for f in d.fields}
    for d in found.values():
        problems.extend(f"{d.key()}: no type here has the field {f}" for f in sorted({f.strip("«»") for f in d.projected} - fields))
    return found


def believed(world, keys=()):
    return closure(world, [named(world, k) for k in keys] if keys else exported(world) + theorems(world) + [program(world)])


# ---- what is printed


# In reading order: crate by crate, the types of its code, its files of definitions, its contracts.
def ordered(world, found):
    for crate in world.order():
        files = world.modules(crate)
        rank = lambda d: ({"type": 0, "trait": 0, "contract": 2}.get(d.kind, 1), files.index(d.file) if d.file in files else 0, d.path, d.first)
        own = sorted((d for d in found.values() if d.crate == crate), key=rank)
        if own:
            yield crate, own


def show_list(world, found):
    for crate, own in ordered(world, found):
        print(crate)
        for d in own:
            print(f"  {d.name}  {os.path.relpath(d.path, TOP)}:{d.first + d.above}")


# The first comment of a file of definitions, and what the names stand for that it gives to others' in some of its definitions.
def header(file, own):
    yield from (l for l in file.header or [] if l != "-- Assumes nothing.")
    used = {t for d in own if d.file == file.name for l in d.lines for t in tokens(l)}
    for name, (module, other) in file.imports.items():
        if name != other and name in used:
            yield f"-- {name}: {other} of {module}"
    for name, module in file.modules.items():
        if any(t.startswith(name + ".") for t in used):
            yield f"-- {name}: {module}"


def show(world, found):
    for crate, own in ordered(world, found):
        print(f"==== {crate}\n")
        path = module = None
        for d in own:
            if d.path != path:
                print(f"---- {os.path.relpath(d.path, TOP)}")
                file = world.file(d.crate, d.file)
                print("\n".join(header(file, own) if file else []) + "\n" * bool(file))
            if d.module and d.module != module:
                print(d.module)
            path, module = d.path, d.module
            print("\n".join([d.fixity] * bool(d.fixity) + d.lines) + "\n")


def assumed(found):
    by_module = {}
    for k in sorted({k for d in found.values() for k in d.kit}):
        module, _, name = re.fullmatch(r"((\w+\.)+)(.+)", k).groups()
        by_module.setdefault(module[:-1], []).append(name)
    return "".join(f"  {m}: {' '.join(names)}\n" for m, names in by_module.items())


def count(found):
    kind = lambda *ks: [d for d in found.values() if d.kind in ks]
    lines = lambda ds: sum(len(d.code()) + bool(d.fixity) for d in ds)
    defs = kind("function", "record", "data")
    sentences = sum(len(d.lines) - len(d.code()) for d in defs)
    return f"{len(defs)} definitions, {lines(defs):,} lines, with {sentences:,} lines of sentences; {len(kind('type'))} types and constants of the code, {lines(kind('type'))} lines; {len(kind('contract'))} contracts"


def main(words):
    signal.signal(signal.SIGPIPE, signal.SIG_DFL)
    options = [w for w in words if w.startswith("--")]
    if len(options) > 1 or set(options) - {"--list", "--count", "--theorems"}:
        sys.exit("usage: tools/believe.py [--list | --count | --theorems] [NAME ...]")
    world = World()
    if options == ["--theorems"]:
        return print("\n".join(told(d) for d in theorems(world)))
    found = believed(world, [w for w in words if w not in options])
    if not options:
        show(world, found)
        print(f"==== assumed, of the kit\n\n{assumed(found)}")
    if options == ["--list"]:
        show_list(world, found)
    print(count(found))
    if problems:
        sys.exit("\n".join(dict.fromkeys(problems)) + f"\n{len(set(problems))} names cannot be told")


if __name__ == "__main__":
    main(sys.argv[1:])
