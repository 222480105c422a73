#!/usr/bin/env python3
# docs/ARCHITECTURE.md against the repository: its crates are those of crates.txt, in that order and in those layers, which are README's too; each function and each word that it names
# is where it says; the changes that customers asked for are the specification's later sections, and name crates that are there. Usage, from the repository's top: tests/map/check.py
import glob, re, sys


def read(path):
    return open(path, encoding="utf-8").read()


wrong = []


def need(holds, told):
    if not holds:
        wrong.append(f"docs/ARCHITECTURE.md: {told}")


# The rows of the table under a heading, each as its cells.
def table(text, heading):
    section = text.split(f"\n## {heading}\n", 1)[1].split("\n## ", 1)[0]
    rows = [[c.strip() for c in line.strip("|").split("|")] for line in section.splitlines() if line.startswith("|")]
    return rows[2:]


def names(cell):
    return re.findall(r"`([^`]+)`", cell)


# The layers of crates.txt, each with its crates.
def listed():
    layers = {}
    for line in read("crates.txt").splitlines():
        if m := re.fullmatch(r"# (\w[\w ]*)", line):
            layers[m[1].lower()] = []
        elif m := re.match(r"(\w+)(?: +staticlib)? *:", line):
            layers[list(layers)[-1]].append(m[1])
    return layers


def crates(page, layers):
    told, layer = {}, None
    for first, crate, _ in table(page, "Layers and crates"):
        layer = first or layer
        told.setdefault(layer, []).extend(names(crate))
    for layer, own in layers.items():
        need(told.get(layer) == own, f"the layer {layer} has {told.get(layer)}, and crates.txt has {own}")
    need(list(told) == list(layers), f"the layers are {list(told)}, and crates.txt has {list(layers)}")
    readme = [row[0] for row in table(read("README.md"), "Where things are")]
    need(readme == list(layers), f"README's layers are {readme}, and crates.txt has {list(layers)}")


# The sections of the specification behind its first text, each with the crates that it stands in.
def changes(page, every):
    headings = re.findall(r"^## (.+)$", read("docs/SPECIFICATION.md"), re.M)
    asked = headings[headings.index("Forms of the Rust that stand in the way") + 1 :]
    rows = table(page, "Changes that customers asked for")
    need([row[0] for row in rows] == asked, f"the changes asked for are {[row[0] for row in rows]}, and docs/SPECIFICATION.md has {asked}")
    for section, crates_of, begins in rows:
        need(names(crates_of), f"{section} stands in no crate")
        need(names(begins), f"{section} begins nowhere")
        for crate in names(crates_of):
            need(crate in every, f"{section}: there is no crate {crate}")


# A function, or a case of an enum, named by its path: of the crate that the path begins with, or of any.
def functions(page, every):
    for path in sorted(set(re.findall(r"`(\w+(?:::\w+)+)`", page))):
        crate = path.split("::")[0]
        files = glob.glob(f"crates/{crate if crate in every else '*'}/src/**/*.rt", recursive=True)
        last = path.split("::")[-1]
        there = any(re.search(rf"\bfn {last}\b|^    {last}\b", read(f), re.M) for f in files)
        need(there, f"{path} is nowhere")


# A word stands in the first file of its row, or in the file behind it in the row.
def words(page):
    for cell, files, _ in table(page, "Words of the contracts"):
        first, *more = names(files)
        folder = first.rsplit("/", 1)[0]
        paths = [first if first.endswith(".rt") else f"{first}.antt"] + [f"{folder}/{f}.antt" for f in more]
        for word in (w.split()[0] for w in names(cell)):
            there = any(re.search(rf"\bpub (?:record |data |struct |enum )?{word}\b", read(f"crates/{p}")) for p in paths)
            need(there, f"{word} is not defined in {' '.join(paths)}")


def main():
    page, layers = read("docs/ARCHITECTURE.md"), listed()
    every = [c for own in layers.values() for c in own]
    crates(page, layers)
    changes(page, every)
    functions(page, every)
    words(page)
    if wrong:
        sys.exit("\n".join(wrong))
    print(f"tests/map: {len(every)} crates in {len(layers)} layers, {len(page.splitlines())} lines")


main()
