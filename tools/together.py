#!/usr/bin/env python3
# Tries edits together, for tools/more-edits.sh --together, which says how. Usage: tools/together.py NAME ..., in a copy of the repository whose crates are proved:
# it writes to src/, and puts back what stood there.
import glob, os, re, shutil, subprocess, sys

# What `rt check` says of a function that is proved, and of one whose own proof fails or would have to be written.
PROVED, FAILED = "fn {}: proved", "fn {}: (not proved|no proof: expected answers in .*)"

# An error that says only that the edit took away a name which the proof has: it is printed where there is no other.
NAMES = r"has no field|is not in scope|has no `"


# Where the text of a file ends within an impl or a trait: its name, as the type's, or as `TypeTrait` of a trait for a type.
IMPLS = r"^impl\b(?:<[^>]*>)? ?(?:(\w+)(?:<[^>]*>)? for )?(?:\w+::)*(\w+)(?:<[^>]*>)? \{$|^(?:pub )?trait (\w+)|^(\})$"


# The edit's file, its old and new texts, and the function that they are in: its name, and its module or, where it is a method, its type. `alone` where it can spoil more
# than one function's own proof: as an edit of specs/ or of a constant, of a contract that the crate itself uses, and one that needs several texts.
def read(crate, edit):
    lines = [line.split(": ", 1) for line in open(edit).read().splitlines() if line]
    file, old, new = ([text for key, text in lines if key == wanted] for wanted in ("file", "old", "new"))
    text = open(f"crates/{crate}/{file[0]}").read()
    if len(file) + len(old) + len(new) != 3 or text.count(old[0]) != 1:
        return {"edit": edit, "alone": True}
    start = text.index(old[0])
    name = (re.findall(r"\bfn (\w+)", text[:start]) or [""])[-1]
    source = "".join(open(f).read() for f in glob.glob(f"crates/{crate}/src/**/*.rt", recursive=True))
    is_contract = old[0].lstrip().startswith(("requires", "ensures")) and len(re.findall(rf"\b{name}\(", source)) > 1
    module = file[0][4:-3].replace("/", "::").removesuffix("::mod")
    trait, of, itself, closed = (re.findall(IMPLS, text[:start], re.M) or [("", "", "", "}")])[-1]
    if not closed:
        module = itself or of + trait
    alone = not file[0].startswith("src/") or is_contract or not name
    return {"edit": edit, "file": f"crates/{crate}/{file[0]}", "start": start, "end": start + len(old[0]), "new": new[0], "in": (module, name), "alone": alone}


# What `rt check` says of a crate with some edits.
def check(crate, edits=()):
    before = {e["file"]: open(e["file"]).read() for e in edits}
    for file, text in before.items():
        for e in sorted((e for e in edits if e["file"] == file), key=lambda e: -e["start"]):
            text = text[: e["start"]] + e["new"] + text[e["end"] :]
        open(file, "w").write(text)
    said = subprocess.run(["rt", "check"], cwd=f"crates/{crate}", stdout=subprocess.PIPE, stderr=subprocess.STDOUT, text=True).stdout.splitlines()
    for file, text in before.items():
        open(file, "w").write(text)
    return said


# What stands before a function's name: its module, or the type of a method with the module in which that is declared.
def before(place, separator):
    if place[0] in ("lib", "main"):
        return ""
    return (rf"(\w+{separator})*" if place[0][0].isupper() else "") + place[0].replace("::", separator) + separator


# The line of a function itself, as `fn rows::table::find: proved`.
def line_of(crate, place, said, form):
    return next((l for l in said if re.fullmatch(form.format(rf"{crate}::{before(place, '::')}{place[1]}"), l)), None)


# The first error of a function's own proof. That something else was not admitted may be another edit's doing, and so may an error in a lemma.
def own_error(crate, place, said):
    proof = rf"(\./)?proofs/{before(place, '/')}{place[1]}/\S*: error"
    errors = [l for l in said if re.match(proof, l) and "was not admitted" not in l]
    return next((l for l in errors if not re.search(NAMES, l)), None) or next(iter(errors), None) or line_of(crate, place, said, FAILED)


# Those of the edits that no round refuses: each round has one edit of each function, and where a callee's edit hides what its caller's does, the caller's waits for the next.
def tried_together(crate, edits):
    left = []
    while edits:
        places, this = set(), []
        for e in edits:
            if e["in"] not in places:
                places.add(e["in"])
                this.append(e)
        said, known = check(crate, this), []
        for e in this:
            error = own_error(crate, e["in"], said)
            if error:
                print(f"{e['edit']}: refused: {'(for a name that the edit took away) ' if re.search(NAMES, error) else ''}{error[:300]}", flush=True)
            elif line_of(crate, e["in"], said, PROVED):
                left.append(e)
            else:
                continue
            known.append(e)
        left += [] if known else this
        edits = [e for e in edits if e not in (known or this)]
    return left


failed = []
for crate in sys.argv[1:]:
    print(f"== {crate}", flush=True)
    said = check(crate)
    if not any(l.startswith("logic=proved") for l in said):
        sys.exit("\n".join([*said[-20:], f"{crate} is not proved as it stands, so its edits are not tried"]))
    edits = [read(crate, edit) for edit in sorted(glob.glob(f"crates/{crate}/more-edits/*.edit"))]
    left = [e for e in edits if e["alone"]] + tried_together(crate, [e for e in edits if not e["alone"]])
    if left:
        shutil.rmtree(f"crates/{crate}/must-fail", ignore_errors=True)
        os.mkdir(f"crates/{crate}/must-fail")
        for e in left:
            shutil.copy(e["edit"], f"crates/{crate}/must-fail")
        failed += [crate] if subprocess.run(["rt", "must-fail", crate]).returncode else []
sys.exit("not refused, or bad: edits of " + " ".join(failed) if failed else 0)
