#!/usr/bin/env python3
"""Makes crates/postcard_vectors/stdin and stdout from the Rust's serde derives.

    tests/postcard/make_vectors.py RUST

RUST is a folder with `seed/plumtree.rs` (iroh-gossip's) and `standins/postcard`. The message types
are taken out of plumtree.rs, with their serde derives, and compiled with vectors.rs against
Debian's packages (librust-serde-dev, librust-serde-derive-dev, librust-bytes-dev,
librust-bytes+serde-dev); nothing is fetched.
"""
import pathlib
import re
import shutil
import subprocess
import sys
import tempfile

TYPES = ["MessageId", "Round", "Message", "Gossip", "DeliveryScope", "Scope", "IHave", "Graft", "Timer"]
KEPT = ["Serialize", "Deserialize", "Clone", "Copy", "PartialEq"]
MANIFEST = """[workspace]
[package]
name = "vectors"
version = "0.1.0"
edition = "2021"
[dependencies]
bytes = {{ version = "1", features = ["serde"] }}
serde = {{ version = "1", features = ["derive"] }}
postcard = {{ path = "{postcard}" }}
"""


def item(text, name):
    """The declaration of a type, with the derives that are kept and without the field attributes of other derives."""
    m = re.search(r"#\[derive\(([^)]*)\)\]\s*(?:#\[[^\]]*\]\s*)*(pub (?:struct|enum) %s\b.*?\n(?:\}|[^\n]*;)\n)" % name, text, re.S)
    head = re.match(r"pub struct %s\([^\n]*;\n" % name, m[2])
    body = head[0] if head else m[2]
    derives = [d for d in re.split(r"[,\s]+", m[1]) if d in KEPT]
    body = re.sub(r"^\s*#\[debug[^\n]*\n", "", body, flags=re.M)
    return "#[derive(%s)]\n%s\n" % (", ".join(derives), body)


def main():
    rust = pathlib.Path(sys.argv[1]).resolve()
    here = pathlib.Path(__file__).resolve().parent
    crate = here.parent.parent / "crates" / "postcard_vectors"
    text = (rust / "seed" / "plumtree.rs").read_text()
    with tempfile.TemporaryDirectory() as folder:
        build = pathlib.Path(folder)
        (build / "src").mkdir()
        (build / "Cargo.toml").write_text(MANIFEST.format(postcard=rust / "standins" / "postcard"))
        (build / "src" / "types.rs").write_text("".join(item(text, name) for name in TYPES))
        shutil.copy(here / "vectors.rs", build / "src" / "main.rs")
        registry = ['--config', 'source.crates-io.replace-with="debian"', '--config', 'source.debian.directory="/usr/share/cargo/registry"']
        subprocess.run(["cargo", "run", "--quiet", "--offline", "-j", "1", *registry, "--", crate / "stdin", crate / "stdout"], cwd=build, check=True)


main()
