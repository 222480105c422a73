#!/usr/bin/env python3
# Every quotation stands word for word in docs/SPECIFICATION.md, or in rust.txt, the sentences of the Rust that are quoted. Usage, from the repository's top:
# tests/quotations/check.py [FILE ...], all files that have quotations if none is named. It fails at the first that is nowhere, and tells how many it looked at.
#   Quotations: what stands between double quotes in a comment of the crates and of C and Rust (but for the original Rust and its stand-ins, tests/rust), in a string of
#   include/plumtree.h, and in README.md, the tests' README.md and the documents but docs/BENCHMARKS.md and docs/SPECIFICATION.md, where a block quote is one too. Program text in a document or between the
#   fences of a comment is none. Comment lines that follow each other are one text.
#   Word for word: but for backquotes, asterisks and line ends; <= is ≤. An ellipsis (… or ..) or words in [brackets] stand for others, and the parts around them come in that order.
#   exceptions.txt has what stands between quotation marks and is no quotation.
import glob, re, sys

HERE = "tests/quotations"


def read(path):
    return open(path, encoding="utf-8").read()


def plain(text):
    return " ".join(re.sub(r"[`*]", "", text).replace("<=", "≤").split())


# Comments that begin with a mark, each with its first line's number: lines that follow each other are one.
def marked(text, mark):
    found, last = [], 0
    for n, line in enumerate(text.splitlines(), 1):
        m = re.match(rf"\s*{mark}(.*)", line)
        trailing = re.search(rf"\s{mark}\s(.*)", line)
        if m and last == n - 1 and found:
            found[-1] = (found[-1][0], found[-1][1] + " " + m[1])
        elif m or trailing:
            found.append((n, (m or trailing)[1]))
        last = n if m else last
    return found


# A string of C, as it is printed.
def printed(literals):
    text = "".join(re.findall(r'"((?:[^"\\]|\\.)*)"', literals))
    return re.sub(r"((?:\\[0-7]{3})+)", lambda m: bytes(int(o, 8) for o in m[1].split("\\")[1:]).decode(), text).replace('\\"', '"')


# The comments of a file of C, and its strings where they are for people to read.
def of_c(text, strings):
    pattern = r'/\*(?P<comment>.*?)\*/|//(?P<line>[^\n]*)|(?P<string>"(?:[^"\\\n]|\\.)*"(?:\s*"(?:[^"\\\n]|\\.)*")*)'
    for m in re.finditer(pattern, text, re.S):
        if strings or not m["string"]:
            comment = re.sub(r"\n\s*\*", "\n", m["comment"] or m["line"] or "")
            yield text[: m.start()].count("\n") + 1, printed(m["string"]) if m["string"] else comment


# Lines that begin with a mark, those of program text left empty: indented by four behind it, or between fences.
def without_programs(lines, mark):
    fenced = False
    for line in lines:
        fence = line.startswith(mark + "```")
        yield "" if fenced or fence or line.startswith(mark + "    ") else line
        fenced ^= fence


# The comments of a file of Rust.
def of_rust(text):
    lines = [re.sub(r"^\s*//[/!]? ?", "// ", line) for line in text.splitlines()]
    return marked("\n".join(without_programs(lines, "// ")), "//")


# The quotations of a file, each with a line's number.
def quotations(path):
    text = read(path)
    if path.endswith(".md"):
        parts = [(n, f'"{line[1:].strip()}"' if line.startswith(">") else line) for n, line in enumerate(without_programs(text.splitlines(), ""), 1)]
    elif path.endswith((".c", ".h")):
        parts = of_c(text, path == "include/plumtree.h")
    elif path.endswith(".rs"):
        parts = of_rust(text)
    else:
        parts = marked(text, "//" if path.endswith(".rt") else "--")
    for n, part in parts:
        if part.count('"') % 2:
            sys.exit(f"{path}:{n}: a quotation mark without its other one")
        for quotation in re.findall(r'"([^"]*)"', part):
            yield n, quotation


# Whether the parts of a quotation stand in a text, in their order.
def stands(quotation, text):
    place = 0
    for part in re.split(r"…|\.\.+|\[[^]]*\]", quotation):
        words = plain(part)
        m = re.compile(r"(?<!\w)" * bool(re.match(r"\w", words)) + re.escape(words) + r"(?!\w)" * bool(re.search(r"\w$", words))).search(text, place)
        if not m:
            return False
        place = m.end()
    return True


def main(named):
    files = named or sorted(
        glob.glob("crates/*/specs/**/*.antt", recursive=True)
        + glob.glob("crates/*/proofs/**/*.antt", recursive=True)
        + glob.glob("crates/*/src/**/*.rt", recursive=True)
        + glob.glob("include/*.h")
        + glob.glob("examples/c/*.[ch]")
        + glob.glob("tests/*/*.c")
        + [f for f in glob.glob("**/*.rs", recursive=True) if not re.match("(.*/)?target/|tests/rust/(seed|standins)/", f)]
        + glob.glob("tests/*/README.md")
        + list(set(glob.glob("docs/*.md")) - {"docs/BENCHMARKS.md", "docs/SPECIFICATION.md"})
    ) + ["README.md"]
    texts = [plain(read(f)) for f in ("docs/SPECIFICATION.md", f"{HERE}/rust.txt")]
    reasons = dict(line.split("\t") for line in read(f"{HERE}/exceptions.txt").splitlines() if not line.startswith("#"))
    looked, excepted = 0, set()
    for path in files:
        for n, quotation in quotations(path):
            looked += 1
            if plain(quotation) in reasons:
                excepted.add(plain(quotation))
            elif not any(stands(quotation, text) for text in texts):
                sys.exit(f'{path}:{n}: this stands in no document: "{quotation}"')
    unused = set(reasons) - excepted
    if unused and not named:
        sys.exit(f"{HERE}/exceptions.txt: nothing has {sorted(unused)}")
    print(f"tests/quotations: {looked} quotations in {len(files)} files, {len(excepted)} exceptions")


main(sys.argv[1:])
